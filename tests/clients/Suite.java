import static java.nio.charset.StandardCharsets.UTF_8;

import java.io.ByteArrayOutputStream;
import java.io.IOException;
import java.nio.file.Files;
import java.nio.file.Path;
import java.util.Arrays;
import java.util.Optional;
import java.util.function.Supplier;
import org.odfilter.EntityType;
import org.odfilter.Filter;
import org.odfilter.FilterRefusedException;
import org.odfilter.Judge;
import org.odfilter.ODataException;
import org.odfilter.QueryRefusedException;
import org.odfilter.RowException;
import org.odfilter.Schema;
import org.odfilter.SchemaException;
import org.odfilter.Span;
import org.odfilter.UnknownTypeException;
import org.odfilter.Verdict;

/** Answers the questions of tests/library_cases.py by the Java classes: `Suite FILE`. */
public final class Suite {
    private final byte[] wire;
    private int at;
    // what is held from question to question; null where nothing could be made
    private Schema schema;
    private EntityType type;
    private Filter filter;

    private Suite(byte[] wire) {
        this.wire = wire;
    }

    public static void main(String[] words) throws IOException {
        Suite suite = new Suite(Files.readAllBytes(Path.of(words[0])));
        ByteArrayOutputStream out = new ByteArrayOutputStream();
        while (suite.at < suite.wire.length) {
            byte[] answer = suite.answer(new String(suite.next(), UTF_8));
            out.writeBytes((answer.length + ":").getBytes(UTF_8));
            out.writeBytes(answer);
            out.write(',');
        }
        out.writeTo(System.out);
        System.out.flush();
    }

    /** The next text of the questions. */
    private byte[] next() {
        int length = 0;
        for (; wire[at] != ':'; at++) {
            length = length * 10 + wire[at] - '0';
        }
        at += length + 2;
        return Arrays.copyOfRange(wire, at - length - 1, at - 1);
    }

    private byte[] answer(String word) {
        switch (word) {
            case "schema":
                return readSchema(next()).getBytes(UTF_8);
            case "type":
                return findType(new String(next(), UTF_8)).getBytes(UTF_8);
            case "filter":
            case "query":
            case "url":
                return check(word, next()).getBytes(UTF_8);
            case "canonical":
                return (filter == null ? "nothing" : filter.canonical()).getBytes(UTF_8);
            case "explain":
                return (filter == null ? "nothing" : filter.explanation()).getBytes(UTF_8);
            default:
                return judged(word, next(), new String(next(), UTF_8));
        }
    }

    private String readSchema(byte[] document) {
        type = close(type);
        filter = close(filter);
        schema = close(schema);
        try {
            schema = Schema.read(document);
            return "accepted";
        } catch (SchemaException fault) {
            return fault.names().stream().reduce(fault.code(), (said, name) -> said + " " + name);
        }
    }

    private String findType(String name) {
        type = close(type);
        filter = close(filter);
        if (schema == null) {
            return "nothing";
        }
        try {
            type = schema.type(name);
            return "found";
        } catch (UnknownTypeException fault) {
            return "unknown";
        }
    }

    private String check(String word, byte[] text) {
        if (type == null) {
            return "nothing";
        }
        filter = close(filter);
        Supplier<Optional<Filter>> call = word.equals("filter")
                ? () -> Optional.of(type.check(new String(text, UTF_8)))
                : word.equals("query") ? () -> type.checkQuery(text) : () -> type.checkUrl(text);
        try {
            filter = call.get().orElse(null);
        } catch (FilterRefusedException refused) {
            String where = where(refused.piece(), refused.value(), refused.text());
            return report(refused) + (word.equals("url") ? where : "");
        } catch (QueryRefusedException refused) {
            return report(refused);
        }
        if (filter == null) {
            return "no filter";
        }
        return "accepted" + (word.equals("url") ? where(filter.piece(), filter.value(), filter.text()) : "");
    }

    private static String where(Span piece, Span value, String text) {
        return "\n" + piece.start() + " " + piece.stop() + " " + value.start() + " " + value.stop() + "\n" + text;
    }

    private byte[] judged(String word, byte[] rows, String moment) {
        if (filter == null) {
            return "nothing".getBytes(UTF_8);
        }
        try (Judge judge = filter.judge()) {
            if (!moment.isEmpty()) {
                judge.at(moment);
            }
            if (word.equals("row")) {
                Verdict verdict = judge.verdict(rows);
                return verdict.toString().toLowerCase().getBytes(UTF_8);
            }
            return joined("\n", judge.filterLines(rows).text());
        } catch (RowException fault) {
            String said = report(fault);
            return word.equals("row") ? said.getBytes(UTF_8)
                    : joined("row " + fault.line() + " " + said + "\n", fault.kept());
        }
    }

    private static byte[] joined(String head, byte[] text) {
        byte[] all = Arrays.copyOf(head.getBytes(UTF_8), head.length() + text.length);
        System.arraycopy(text, 0, all, head.length(), text.length);
        return all;
    }

    /** An error as the program spells it. */
    private static String report(ODataException error) {
        if (error instanceof FilterRefusedException) {
            return "refused " + error.code() + " " + ((FilterRefusedException) error).byteSpan();
        }
        if (error instanceof QueryRefusedException) {
            return "refused query " + error.code() + " " + ((QueryRefusedException) error).number();
        }
        return (error.code() + " " + ((RowException) error).path()).trim();
    }

    private static <T extends AutoCloseable> T close(T held) {
        try {
            if (held != null) {
                held.close();
            }
            return null;
        } catch (Exception error) {
            throw new IllegalStateException(error);
        }
    }
}
