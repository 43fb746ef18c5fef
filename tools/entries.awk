# Prints, for each entry point of a source file of the repository, a function of the same name, head and contract whose
# body calls it: the source of the crate that tools/make-dist compiles. PATH is the path of the file's module.
#
# usage: awk -v path=PATH -f entries.awk FILE.rt

/^ghost use / { print; next }
/^#\[unsafe\(no_mangle\)\]$/ { inside = 1; head = ""; print ""; print; next }
inside && /^\{$/ {
    name = head
    sub(/^pub extern "C" fn /, "", name)
    sub(/\(.*/, "", name)
    sub(/^[^(]*\(/, "", head)
    sub(/\).*/, "", head)
    call = ""
    count = split(head, parameters, ",")
    for (i = 1; i <= count; i++) {
        sub(/:.*/, "", parameters[i])
        gsub(/[ \t]/, "", parameters[i])
        if (parameters[i] != "") call = call (call == "" ? "" : ", ") parameters[i]
    }
    printf "{\n    %s::%s(%s)\n}\n", path, name, call
    inside = 0
    next
}
inside { head = head $0; print }
