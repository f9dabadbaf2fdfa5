# The commands of oracle/NAME/run, which sets `name` and goes to the repository's root before it reads this file.
. oracle/shared/building.sh
# What is wrong in the first answer that differs.
show() {
    line=$(diff "$out/expected" "$out/answers" | sed -n '1s/[^0-9].*//p')
    echo "$(diff "$out/expected" "$out/answers" | grep -c '^[<]') answers differ or are missing; the first is that of line $line"
    for file in cases expected answers; do
        echo "$file: $(sed -n "${line}p" "$out/$file" | cut -c1-2000)"
    done
}
case "$1 $#" in
"vectors 1")
    build oracle
    "$out/oracle" vectors "crates/${name}_test/stdin" "crates/${name}_test/stdout"
    ;;
"compare 3")
    build oracle
    quietly proved_program "${name}_test"
    "$out/oracle" cases "$2" "$3" "$out/cases" "$out/expected"
    "crates/${name}_test/out/${name}_test" < "$out/cases" > "$out/answers"
    if cmp -s "$out/expected" "$out/answers"; then
        echo "$(grep -c '' "$out/cases") lines, 0 differences"
    else
        show
        exit 1
    fi
    ;;
"bench 1")
    quietly proved_archive "${name}_native"
    build bench -L "crates/${name}_native/out" -l "static=${name}_native"
    "$out/bench"
    ;;
*)
    usage
    ;;
esac
