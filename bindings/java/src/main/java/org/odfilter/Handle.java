package org.odfilter;

import java.lang.ref.Cleaner;
import java.util.concurrent.atomic.AtomicInteger;
import java.util.function.LongFunction;
import java.util.function.LongToIntFunction;

/** A handle, until its owner is closed or collected. It is not freed while a call uses it. */
final class Handle implements AutoCloseable {
    private static final Cleaner CLEANER = Cleaner.create();
    final Shared shared;
    private final Cleaner.Cleanable cleanable;
    private volatile boolean isClosed;

    /** The handle with the count of its users: its owner, calls under way, and judges. It never leads to its owner. */
    static final class Shared implements Runnable {
        private final long at;
        private final Shared under;
        private final AtomicInteger users = new AtomicInteger(1);

        private Shared(long at, Shared under) {
            this.at = at;
            this.under = under;
        }

        /** Counts one more user, unless the handle was freed. */
        boolean acquire() {
            return users.getAndUpdate(count -> count == 0 ? 0 : count + 1) > 0;
        }

        void release() {
            if (users.decrementAndGet() == 0) {
                Calls.free(at);
                if (under != null) {
                    under.release();
                }
            }
        }

        long at() {
            return at;
        }

        Shared under() {
            return under;
        }

        @Override
        public void run() {
            release();
        }
    }

    /** Takes over what a call made; `under` is what that needs, which has been acquired for it. */
    Handle(Object owner, long at, Shared under) {
        shared = new Shared(at, under);
        cleanable = CLEANER.register(owner, shared);
    }

    /** Acquires the handle for a call or a judge. */
    Shared acquired() {
        if (isClosed || !shared.acquire()) {
            throw new IllegalStateException("already closed");
        }
        return shared;
    }

    /** What a call with the handle gives. */
    <T> T use(LongFunction<T> call) {
        Shared used = acquired();
        try {
            return call.apply(used.at());
        } finally {
            used.release();
        }
    }

    /** The status of a call with the handle. */
    int status(LongToIntFunction call) {
        Shared used = acquired();
        try {
            return call.applyAsInt(used.at());
        } finally {
            used.release();
        }
    }

    @Override
    public void close() {
        isClosed = true;
        cleanable.clean();
    }
}
