package org.terncommode.grpc;

import io.grpc.Metadata;
import java.util.ArrayList;
import java.util.List;
import org.terncommode.Carriers;
import org.terncommode.Context;
import org.terncommode.Form;
import org.terncommode.Members;

/** Contexts in the metadata of gRPC. */
final class Metadatas {
    static final Metadata.Key<byte[]> KEY = Metadata.Key.of(Carriers.GRPC_KEY, Metadata.BINARY_BYTE_MARSHALLER);
    private static final Metadata.Key<String> BAGGAGE = Metadata.Key.of(Members.HEADER, Metadata.ASCII_STRING_MARSHALLER);

    private Metadatas() {}

    static boolean carries(Metadata metadata) {
        return metadata != null && metadata.containsKey(KEY);
    }

    /** The merge of all that came under the key, a blank value lost; absent where nothing came. */
    static Context extract(Metadata metadata, Context absent) {
        if (!carries(metadata)) {
            return absent;
        }
        List<Context> found = new ArrayList<>();
        metadata.getAll(KEY).forEach(value -> found.add(Carriers.fromBinary(value)));
        return Context.join(found);
    }

    /** Sets what is carried, in place of what is there. */
    static void inject(Metadata metadata, Context context, long budget) {
        metadata.discardAll(KEY);
        metadata.put(KEY, Carriers.toBinary(context.cut(budget, Form.TWO)));
    }

    /** A copy without what has been read, and at an edge without all that carries contexts. */
    static Metadata seen(Metadata metadata, boolean isTrusting) {
        Metadata seen = new Metadata();
        seen.merge(metadata);
        if (isTrusting) {
            seen.discardAll(KEY);
            return seen;
        }
        for (String name : metadata.keys()) {
            if (Carriers.isOwn(name)) {
                discard(seen, name);
            }
        }
        Iterable<String> values = metadata.getAll(BAGGAGE);
        if (values != null) {
            List<String> members = new ArrayList<>();
            values.forEach(members::add);
            seen.discardAll(BAGGAGE);
            Members.others(members).forEach(value -> seen.put(BAGGAGE, value));
        }
        return seen;
    }

    private static void discard(Metadata metadata, String name) {
        if (name.endsWith(Metadata.BINARY_HEADER_SUFFIX)) {
            metadata.discardAll(Metadata.Key.of(name, Metadata.BINARY_BYTE_MARSHALLER));
        } else {
            metadata.discardAll(Metadata.Key.of(name, Metadata.ASCII_STRING_MARSHALLER));
        }
    }
}
