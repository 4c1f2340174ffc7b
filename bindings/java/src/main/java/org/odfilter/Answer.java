package org.odfilter;

/** What a call reports besides its status. Made by bindings/make from include/odfilter.json. */
final class Answer {
    /** How many bytes it has in the library's memory. */
    static final int SIZE = 96;
    int fault;
    int verdict;
    long start;
    long stop;
    long number;
    long length;
    long first;
    long rows;
    long kept;
    long pieceStart;
    long pieceStop;
    long valueStart;
    long valueStop;
}
