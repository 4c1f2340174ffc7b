package org.odfilter;

/** What a filter is on a row. A row is kept where it is TRUE. */
public enum Verdict {
    FALSE, TRUE, NULL;

    static Verdict of(int number) {
        switch (number) {
            case Numbers.VERDICT_FALSE:
                return FALSE;
            case Numbers.VERDICT_TRUE:
                return TRUE;
            default:
                return NULL;
        }
    }
}
