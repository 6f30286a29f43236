# shellcheck shell=bash
# How the jar is made. It is sourced by make_jar, and by the tests, which make one of a changed copy of the package.

java_here=$(cd "$(dirname "${BASH_SOURCE[0]}")" && pwd)

# The processor of an ELF file, as Java names it, and the compiler for it.
machine_of() { case $(od -An -tu2 -j18 -N2 "$1" | tr -d ' ') in 62) echo x86_64 ;; 183) echo aarch64 ;; *) echo unknown ;; esac; }
compiler_for() { if [ "$1" = "$(uname -m)" ]; then echo "${CC:-cc}"; else echo "$1-linux-gnu-gcc"; fi; }

# compiles_natives JDK CLASSES PREFIX: the natives over the library at a prefix, in the folder of their processor.
compiles_natives() {
    local home=$1 prefix=$3 processor cc native
    processor=$(machine_of "$prefix/lib/libbaggage.so.2")
    cc=$(compiler_for "$processor")
    command -v "$cc" >/dev/null || { echo "make_jar: there is no $cc, which compiles for $processor" >&2; exit 69; }
    native=$2/org/terncommode/native/linux-$processor
    mkdir -p "$native"
    # shellcheck disable=SC2086
    "$cc" -std=c99 -O2 -fPIC -fvisibility=hidden ${CFLAGS-} -shared -I"$home/include" -I"$home/include/linux" -I"$prefix/include" "$java_here/native/terncommode.c" \
        "$prefix/lib/libbaggage.a" -Wl,-z,defs,-z,relro,-z,now -Wl,--exclude-libs,ALL -Wl,--build-id=none -s ${LDLIBS-} -o "$native/libterncommode.so"
}

# The first jar, of those of CLASSPATH and of Debian's, that has a class.
jar_with() {
    local jar
    for jar in ${CLASSPATH:+${CLASSPATH//:/ }} /usr/share/java/servlet-api.jar /usr/share/java/grpc-api.jar /usr/share/java/grpc-context.jar; do
        if [ -f "$jar" ] && "$1/bin/jar" --list --file "$jar" "$2" | grep -q .; then
            echo "$jar"
            return
        fi
    done
}

compiles() {
    local home=$1 classes=$2
    shift 2
    "$home/bin/javac" --release 11 -Xlint:all,-classfile,-path -Werror -proc:none -d "$classes" "$@"
}

# compiles_servlets JDK WORK: what is for servlets, for the first interface that is here.
compiles_servlets() {
    local servlet jar source
    for servlet in jakarta javax; do
        jar=$(jar_with "$1" $servlet/servlet/http/HttpFilter.class)
        [ -n "$jar" ] || continue
        mkdir "$2/servlet"
        for source in "$java_here"/src/org/terncommode/servlet/*.java; do
            sed "s/javax\.servlet/$servlet.servlet/" "$source" >"$2/servlet/${source##*/}"
        done
        compiles "$1" "$2/classes" -cp "$2/classes:$jar" "$2"/servlet/*.java
        printf ', for %s.servlet' "$servlet"
        return
    done
}

# compiles_grpc JDK WORK: what is for gRPC, where it is here.
compiles_grpc() {
    local jar
    jar=$(jar_with "$1" io/grpc/ClientInterceptor.class)
    [ -n "$jar" ] || return 0
    compiles "$1" "$2/classes" -cp "$2/classes:$jar:$(jar_with "$1" io/grpc/Context.class)" "$java_here"/src/org/terncommode/grpc/*.java
    printf ', for gRPC'
}

# manifest PREFIX: what the jar says of itself.
manifest() {
    local version
    version=$(sed -n 's/^#define BAGGAGE_VERSION \([0-9]*\)/\1/p' "$1/include/baggage.h")
    printf 'Automatic-Module-Name: org.terncommode\nImplementation-Title: terncommode\nImplementation-Version: %d.%d.%d\n' \
        $((version / 10000)) $((version / 100 % 100)) $((version % 100))
}

# packs JDK WORK JAR: the jar of the classes. From 17 on the same files give the same jar.
packs() {
    local date=
    "$1/bin/jar" --help | grep -q -- --date && date=--date=1980-01-01T00:00:02Z
    (cd "$2/classes" && find org -type f | LC_ALL=C sort >"$2/files" && "$1/bin/jar" --create --file "$3" --manifest "$2/manifest" $date "@$2/files")
}

# makes_jar JAR PREFIX..: says which jar it has made, and what is in it beside the package itself.
makes_jar() {
    local out javac home work parts prefix
    out=$(readlink -f "$1")
    shift
    javac=$(command -v "${JAVA_HOME:+$JAVA_HOME/bin/}javac") || { echo "make_jar: there is no javac; tools/setup --list has the packages" >&2; exit 69; }
    home=$(dirname "$(dirname "$(readlink -f "$javac")")")
    work=$(mktemp -d)
    # shellcheck disable=SC2064
    trap "rm -rf '$work'" EXIT
    mkdir "$work/classes"
    for prefix; do compiles_natives "$home" "$work/classes" "$(cd "$prefix" && pwd)"; done
    compiles "$home" "$work/classes" "$java_here"/src/org/terncommode/*.java "$java_here"/src/org/terncommode/http/*.java
    parts=$(compiles_servlets "$home" "$work")$(compiles_grpc "$home" "$work")
    manifest "$1" >"$work/manifest"
    packs "$home" "$work" "$out"
    rm -rf "$work"
    trap - EXIT
    echo "$out$parts"
}
