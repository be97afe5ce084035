# Prints the functions of lldpa.h that check their pointers, and then call the proved function of the same name with the
# same arguments. lldpa.c includes them, and has the few functions with other rules.
#     gcc -E -P lldpa.h | awk -f checked.awk
#
# A pointer before a size_t is an array of that length, which may be NULL if the length is 0. No other pointer may be
# NULL. A handle that is only read is copied.
BEGIN { RS = ";" }

!/^[ \n]*(_Bool|uint8_t) lldpa_[a-z_]+\(/ || /lldpa_(open|frame)\(/ { next }

{
    gsub(/[ \n]+/, " ")
    sub(/^ /, "")
    match($0, /lldpa_[a-z_]+\(.*\)/)
    name = parameters = substr($0, RSTART, RLENGTH - 1)
    sub(/\(.*/, "", name)
    sub(/.*\(/, "", parameters)
    count = split(parameters, declared, ", ")
    checks = arguments = separator = ""
    for (at = 1; at <= count; at++) {
        variable = declared[at]
        sub(/.*[ *]/, "", variable)
        argument = variable
        check = ""
        if (declared[at] ~ /\*/ && declared[at + 1] ~ /^size_t [a-z_]+$/) {
            check = declared[at] ~ /lldpa_tlv / ? "lacks_octets" : "is_missing"
            check = check "(" variable ", " substr(declared[at + 1], 8) ")"
            argument = "SOME(" variable ")"
        } else if (declared[at] ~ /\*/) {
            check = variable " == NULL"
        }
        if (declared[at] ~ /const lldpa_agent /) {
            argument = "COPY(" variable ")"
        }
        checks = checks (checks != "" && check != "" ? " || " : "") check
        arguments = arguments separator argument
        separator = ", "
    }
    print "\nextern __typeof__(" name ") proved_" name " PROVED;"
    print $0 "\n{"
    print "    if (" checks ") {\n        return " ($1 == "uint8_t" ? "LLDPA_NULL" : "false") ";\n    }"
    print "    return proved_" name "(" arguments ");\n}"
}
