package org.odfilter;

import java.util.ArrayList;
import java.util.List;
import java.util.stream.Collectors;

/** An entity or complex type as a schema declares it. */
public final class DeclaredType {
    private final String name;
    private final String kind;
    private final List<DeclaredProperty> properties = new ArrayList<>();

    private DeclaredType(String[] words) {
        kind = words[0];
        name = words[1];
    }

    /** The types of a schema, or one type, from the lines that the library writes. */
    static List<DeclaredType> of(long given) {
        String lines = Text.of(Text.written((text, answer) -> Calls.types(given, text, answer)));
        List<DeclaredType> found = new ArrayList<>();
        for (String line : lines.lines().collect(Collectors.toList())) {
            if (line.startsWith("  ")) {
                found.get(found.size() - 1).properties.add(new DeclaredProperty(line.trim().split(" ")));
            } else {
                found.add(new DeclaredType(line.split(" ")));
            }
        }
        return List.copyOf(found);
    }

    /** The name with its namespace. */
    public String name() {
        return name;
    }

    /** entity or complex. */
    public String kind() {
        return kind;
    }

    /** The properties, those of its base first. */
    public List<DeclaredProperty> properties() {
        return List.copyOf(properties);
    }
}
