package org.odfilter;

import java.io.IOException;
import java.io.InputStream;
import java.io.UncheckedIOException;
import java.nio.file.Files;
import java.nio.file.Path;
import java.nio.file.StandardCopyOption;

/**
 * Finds the C library: the file of the system property odfilter.library, else that of the variable ODFILTER_LIBRARY,
 * else the one in this jar, which is copied into a temporary file.
 */
final class Loader {
    private static final String NAME = "libodfilter.so";

    private Loader() {
    }

    static String path() {
        String named = System.getProperty("odfilter.library", System.getenv("ODFILTER_LIBRARY"));
        return named != null ? named : copied("/native/" + platform() + "/" + NAME);
    }

    /** Refuses a library that writes longer answers than these classes read. */
    static void requireFit(int status) {
        if (status != Numbers.OK) {
            throw new UnsatisfiedLinkError("odfilter: the library is newer than these classes: its answers are longer");
        }
    }

    /** The platform as in linux-x86-64. */
    private static String platform() {
        String machine = System.getProperty("os.arch");
        return System.getProperty("os.name").toLowerCase() + "-" + (machine.equals("amd64") ? "x86-64" : machine);
    }

    private static String copied(String resource) {
        try (InputStream library = Loader.class.getResourceAsStream(resource)) {
            if (library == null) {
                throw new UnsatisfiedLinkError("odfilter: no library for " + platform() + " in this jar");
            }
            Path copy = Files.createTempFile("odfilter", NAME);
            copy.toFile().deleteOnExit();
            Files.copy(library, copy, StandardCopyOption.REPLACE_EXISTING);
            return copy.toString();
        } catch (IOException error) {
            throw new UncheckedIOException(error);
        }
    }
}
