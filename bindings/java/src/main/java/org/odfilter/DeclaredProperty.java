package org.odfilter;

import java.util.Arrays;
import java.util.List;
import java.util.Optional;

/** A property as a schema declares it; of a collection, the type and isNullable are those of an item. */
public final class DeclaredProperty {
    private static final String OF_MANY = "Collection(";
    private final String name;
    private final String type;
    private final boolean isCollection;
    private final List<String> words;

    /** Of the words of its line: its name, its type, and what is said of it. */
    DeclaredProperty(String[] line) {
        name = line[0];
        isCollection = line[1].startsWith(OF_MANY);
        type = isCollection ? line[1].substring(OF_MANY.length(), line[1].length() - 1) : line[1];
        words = Arrays.asList(line).subList(2, line.length);
    }

    public String name() {
        return name;
    }

    /** The name of the type; empty where it is not read: neither filters nor rows can have the property. */
    public Optional<String> type() {
        return Optional.of(type).filter(it -> !it.equals("?"));
    }

    public boolean isCollection() {
        return isCollection;
    }

    public boolean isNullable() {
        return words.contains("nullable");
    }

    public boolean isNavigation() {
        return words.contains("navigation");
    }
}
