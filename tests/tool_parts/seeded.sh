# Seeded logs, some of them longer than what is read at once, and seeded times: the tool against the second program.

"$second" tool "$hours" "$PWD"
