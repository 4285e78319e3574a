# Read by tests/list_cases: the calls of services in a source. The files are the list of the services, tests/rows.s,
# whose imports a source may use, and the source. A line `LIBRARY NUMBER CASE -` is written for each place where a stub
# stands in a call or in a row, and for each syscall of a service. Where a row wants an error number of a service, which
# it names itself or by a function that ends with a jump to it, the number stands in place of -. Where a row or a
# syscall has the remark `over a stub`, its service writes over a live stub, and `stub` stands in place of -.

FILENAME == ARGV[1] {
  if ($1 != library) first[libraries++] = library = $1
  listed[$1 " " $2] = 1
  next
}
{ over = /; over a stub$/; sub(/;.*/, ""); gsub(/,/, " ") }
$1 == ".import" { library = $2 }
$1 == ".fn" { stub[$2] = library " " $3 }
FILENAME != ARGV[3] { next }
/^[A-Za-z_0-9]+:/ { label = substr($1, 1, length($1) - 1) }
($1 == "j" || $1 == "jal") && $2 in stub { tell(stub[$2], "-") }
$1 == "j" && $2 in stub { ends_in[label] = stub[$2] }
$1 == "syscall" { tell_call(first[int($2 / 256)] " " $2 % 256, "-") }
$1 == ".word" {
  for (n = 2; n <= NF; n++) if ($n in stub) tell(stub[$n], "-")
  tell_call($2 in stub ? stub[$2] : ends_in[$2], $5 ~ /^-(1|[1-4][0-9][0-9])$/ ? $5 : "")
}

function tell(service, code) { if (code != "" && service in listed) print service, case, code }

function tell_call(service, code) {
  tell(service, code)
  if (over) tell(service, "stub")
}
