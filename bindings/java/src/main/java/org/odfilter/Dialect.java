package org.odfilter;

/** An engine that conditions of SQL are written for. */
public enum Dialect {
    POSTGRESQL(Numbers.FORM_POSTGRESQL_COLUMNS, Numbers.FORM_POSTGRESQL_JSON),
    SQLITE(Numbers.FORM_SQLITE_COLUMNS, Numbers.FORM_SQLITE_JSON);

    final int ofColumns;
    final int ofJson;

    Dialect(int ofColumns, int ofJson) {
        this.ofColumns = ofColumns;
        this.ofJson = ofJson;
    }
}
