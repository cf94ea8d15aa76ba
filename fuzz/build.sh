#!/bin/bash -eu
# Builds the fuzz targets, in the form of OSS-Fuzz: CC, CFLAGS, LIB_FUZZING_ENGINE, SRC, OUT as its images set them.
# The library comes built, in the folder that YAMLCANON_LIB_DIR names (tools/library FOLDER, or lib/ of a release), since the
# prover that builds it is in no image. By hand, with Debian's clang and libclang-rt-14-dev:
#     YAMLCANON_LIB_DIR=FOLDER OUT=/tmp/fuzz fuzz/build.sh
case "${1:-}" in
-h | --help) sed -n '2,/^[^#]/s/^# \{0,1\}//p' "$0" && exit 0 ;;
?*) echo "build.sh: it takes no arguments; --help says what it reads" >&2 && exit 2 ;;
esac
here=$(cd "$(dirname "$0")" && pwd)
: "${SRC:=$here/..}" "${OUT:?}" "${YAMLCANON_LIB_DIR:?}"
: "${CC:=clang}" "${CFLAGS:=-O2 -g -fno-omit-frame-pointer -fsanitize=fuzzer-no-link,address,undefined -fno-sanitize-recover=undefined}"
: "${LIB_FUZZING_ENGINE:=-fsanitize=fuzzer}"
mkdir -p "$OUT"
for target in ${TARGETS:-canonical events same budget}; do
    # shellcheck disable=SC2086
    $CC $CFLAGS -std=gnu11 -Wall -Wextra -Werror -I "$here/../include" -o "$OUT/$target" "$here/$target.c" ${PLANTED:-} \
        "$YAMLCANON_LIB_DIR/libyamlcanon.a" $LIB_FUZZING_ENGINE
    python3 "$here/corpus.py" "$target" "$OUT/${target}_seed_corpus.zip"
    cp "$here/yaml.dict" "$OUT/$target.dict"
    printf '[libfuzzer]\nmax_len = 4096\nclose_fd_mask = 1\n' > "$OUT/$target.options"
done
