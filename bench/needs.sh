# needs PACKAGES TOOL..: ends the script well, with a word, where one of the tools isn't here
needs() {
    packages=$1
    shift
    missing=
    for tool; do
        command -v "$tool" >/dev/null 2>&1 || missing="$missing $tool"
    done
    [ -z "$missing" ] || { echo "missing:$missing ($packages); nothing was done"; exit 0; }
}
