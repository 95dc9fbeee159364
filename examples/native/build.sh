#!/bin/sh
# Builds the examples in C and in Java in the current folder. `pkg-config` has to find the library: with the tarball of
# a release, set PKG_CONFIG_PATH to its folder lib/pkgconfig.
set -e
top=$(cd "$(dirname "$0")/../.." && pwd)
pkg-config --exists vindaesk || {
    echo "build.sh: pkg-config finds no vindaesk: set PKG_CONFIG_PATH to the folder lib/pkgconfig of a release" >&2
    exit 1
}
lib=$(pkg-config --variable=libdir vindaesk)
include=$(pkg-config --variable=includedir vindaesk)

cc "$top/examples/native/lay_out.c" -I"$include" -L"$lib" -lvindaesk -Wl,-rpath,"$lib" -o lay_out

jdk=$(dirname "$(dirname "$(readlink -f "$(command -v javac)")")")
cc -shared -fPIC -I"$jdk/include" -I"$jdk/include/linux" -I"$include" "$top/bindings/java/vindaesk_jni.c" \
    "$lib/libvindaesk.a" -o libvindaesk_jni.so
javac -d . "$top/bindings/java/src/vindaesk/Vindaesk.java" "$top/examples/native/LayOut.java" \
    "$top/examples/native/ScreenTest.java"
