package org.terncommode;

/**
 * A reply that a request awaits. It has {@link #began} with its first byte or message: from then on the request's context is lost, in what it sends
 * too, until it {@link #came}. Where it {@link #failed} and had begun, the request stays lost, and where nothing of it came it adds nothing. Any
 * thread may call it.
 */
public final class Reply {
    private final Request request;
    private boolean hasBegun;
    private boolean isSettled;

    Reply(Request request) {
        this.request = request;
    }

    /** Something of it is here. It may be said again. */
    public synchronized void began() {
        if (!hasBegun && !isSettled) {
            hasBegun = true;
            request.opened();
        }
    }

    /** Its context is here, {@link Context#LOST} where it has none. False where the request's own reply has begun. */
    public synchronized boolean came(Context context) {
        boolean wasOpen = hasBegun && !isSettled;
        isSettled = true;
        return request.came(context.closed(), wasOpen);
    }

    /** It won't come. After {@link #came} it does nothing. */
    public synchronized void failed() {
        if (hasBegun && !isSettled) {
            request.lost();
        }
        isSettled = true;
    }
}
