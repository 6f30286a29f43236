package org.terncommode.servlet;

import java.io.FilterWriter;
import java.io.IOException;
import java.io.PrintWriter;
import java.io.Writer;
import javax.servlet.ServletOutputStream;
import javax.servlet.WriteListener;
import javax.servlet.http.HttpServletResponse;
import javax.servlet.http.HttpServletResponseWrapper;

/** A reply that does something before its head is written. */
final class ReplyWriter extends HttpServletResponseWrapper {
    private final Runnable ends;
    private boolean hasBegun;
    private ServletOutputStream stream;
    private PrintWriter writer;

    ReplyWriter(HttpServletResponse reply, Runnable ends) {
        super(reply);
        this.ends = ends;
    }

    synchronized void begins() {
        if (!hasBegun && !isCommitted()) {
            hasBegun = true;
            ends.run();
        }
    }

    @Override
    public void sendError(int status, String message) throws IOException {
        begins();
        super.sendError(status, message);
    }

    @Override
    public void sendError(int status) throws IOException {
        begins();
        super.sendError(status);
    }

    @Override
    public void sendRedirect(String location) throws IOException {
        begins();
        super.sendRedirect(location);
    }

    @Override
    public void flushBuffer() throws IOException {
        begins();
        super.flushBuffer();
    }

    /** What had been set is gone, so it is set anew with the next byte. */
    @Override
    public synchronized void reset() {
        super.reset();
        hasBegun = false;
        stream = null;
        writer = null;
    }

    @Override
    public synchronized ServletOutputStream getOutputStream() throws IOException {
        if (stream == null) {
            stream = new Stream(super.getOutputStream());
        }
        return stream;
    }

    @Override
    public synchronized PrintWriter getWriter() throws IOException {
        if (writer == null) {
            writer = new PrintWriter(new Letters(super.getWriter()));
        }
        return writer;
    }

    private final class Letters extends FilterWriter {
        Letters(Writer writer) {
            super(writer);
        }

        @Override
        public void write(int letter) throws IOException {
            begins();
            super.write(letter);
        }

        @Override
        public void write(char[] letters, int first, int length) throws IOException {
            begins();
            super.write(letters, first, length);
        }

        @Override
        public void write(String text, int first, int length) throws IOException {
            begins();
            super.write(text, first, length);
        }

        @Override
        public void flush() throws IOException {
            begins();
            super.flush();
        }

        @Override
        public void close() throws IOException {
            begins();
            super.close();
        }
    }

    private final class Stream extends ServletOutputStream {
        private final ServletOutputStream stream;

        Stream(ServletOutputStream stream) {
            this.stream = stream;
        }

        @Override
        public void write(int each) throws IOException {
            begins();
            stream.write(each);
        }

        @Override
        public void write(byte[] bytes, int first, int length) throws IOException {
            begins();
            stream.write(bytes, first, length);
        }

        @Override
        public void flush() throws IOException {
            begins();
            stream.flush();
        }

        @Override
        public void close() throws IOException {
            begins();
            stream.close();
        }

        @Override
        public boolean isReady() {
            return stream.isReady();
        }

        @Override
        public void setWriteListener(WriteListener listener) {
            stream.setWriteListener(listener);
        }
    }
}
