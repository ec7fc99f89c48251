# Prints libfemem.3 with the prototypes of femem.h at its line `.\" prototypes`: awk -f prototypes.awk femem.h libfemem.3.
function wrapped(text,    parts, count, line, i) {
  count = split(text, parts, ", ")
  line = parts[1]
  for (i = 2; i <= count; i++) {
    if (length(line) + length(parts[i]) > 70) { shown = shown "\\fB" line ",\\fP\n"; line = "    " parts[i] }
    else line = line ", " parts[i]
  }
  shown = shown "\\fB" line "\\fP\n"
}
FNR == NR && /^[a-z][a-z0-9_ ]*[ *]femem_[a-z_]*\(/ {
  text = $0
  while (text !~ /;$/ && (getline more) > 0) { sub(/^ +/, " ", more); text = text more }
  wrapped(text)
}
FNR == NR { next }
/^\.\\" prototypes$/ { printf ".PP\n.nf\n%s.fi\n", shown; next }
{ print }
