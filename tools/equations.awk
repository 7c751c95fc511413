# Turns cases of the second program, one a line, into equations of the definitions, each in the next of so many `crates`, in files of fifty. `dir` is the
# path of the crates without their number.

# a byte string of hex digits, with equal bytes written (bb*count), as a list
function list(h,    s, close_, run, k) {
    if (h == "-") return "[]"
    s = ""; close_ = ""
    while (length(h) > 0) {
        if (substr(h, 1, 1) == "(") {
            k = index(h, ")")
            run = substr(h, 2, k - 2)
            s = s "(replicate " substr(run, 4) " 0x" substr(run, 1, 2) " ++ ("
            close_ = close_ "))"
            h = substr(h, k + 1)
        } else {
            s = s "0x" substr(h, 1, 2) " ∷ "
            h = substr(h, 3)
        }
    }
    return "(" s "[]" close_ ")"
}

# rows of numbers as one list
function numbers(t,    n, a, i, s) {
    n = split(t, a, " ")
    s = ""
    for (i = 1; i <= n; i++) if (a[i] != ";") s = s a[i] " ∷ "
    return "(" s "[]" ")"
}

# a signed number
function signed_number(n) {
    return n < 0 ? "(neg_ℤ (pos " substr(n, 2) "))" : "(pos " n ")"
}

# places and outcomes as one list
function tested(t,    n, a, i, s) {
    n = split(t, a, " ")
    s = ""
    for (i = 1; i <= n; i += 2) s = s a[i] " ∷ " (a[i + 1] == "false" ? 0 : a[i + 1] == "true" ? 1 : 2) " ∷ "
    return "(" s "[]" ")"
}

# what stands right of the sign of equality; a missing answer without its cause stands for any
function answer(t,    a, p) {
    split(t, a, " ")
    if (a[1] == "refused") return "refusal " a[2] " " a[3]
    if (t ~ /^[0-9]/) return "tests " tested(t)
    if (a[1] == "true") return "is_true"
    if (a[1] == "false") return "is_false"
    if (t == "missing") return "is_missing Cause.Bit"
    if (a[1] == "missing") return "is_missing Cause." toupper(substr(a[2], 1, 1)) substr(a[2], 2)
    if (a[1] == "number") return "is_number " signed_number(a[2]) " " signed_number(a[3])
    if (a[1] == "text") return "is_text " list(a[2])
    if (a[1] == "date") return "is_date " signed_number(a[2]) " " a[3]
    split(t, p, "|")
    return "rows " numbers(p[2]) " " numbers(p[3]) " " numbers(p[4])
}

# the next file of a crate
function open_file(crate,    proofs, name) {
    proofs = dir crate "/proofs"
    name = "Batch" (++files[crate])
    if (crate in file) close(file[crate])
    file[crate] = proofs "/" name ".antt"
    print "pub mod " name >> (proofs "/Lib.antt")
    print "use Prim.Native.Nat.{ℕ}" > file[crate]
    print "use mathlib.Core.Path.{◌≡◌, refl}" > file[crate]
    print "use mathlib.Core.List.{List, [], ◌∷◌, ◌++◌}" > file[crate]
    print "use lib.IntN.{pos, neg_ℤ}" > file[crate]
    print "use lib.ListN.{replicate}" > file[crate]
    print "use Rattle.records.specs.declared.missing.Cause.TheVariants as Cause" > file[crate]
    print "use Rattle.examples.proofs.Answers.{Answer, rows, is_true, is_false, is_missing, is_number, is_text, is_date, tests, any_cause, refusal, read_answer, evaluate_answer, value_answer, explain_answer}" > file[crate]
}

{
    crate = (NR - 1) % crates + 1
    if (cases[crate]++ % 50 == 0) open_file(crate)
    k = index($0, " = ")
    right = substr($0, k + 3)
    runs = $7 == "=" ? "[]" : list($7)
    if ($1 == "read") left = "read_answer " list($3) " " list($2) " " $4 " " $5 " " $6
    else left = $1 "_answer " list($3) " " list($2) " " $4 " " list($5) " " list($6) " " runs
    if ($1 == "explain") left = left " 21844"
    if (right == "missing") left = "any_cause (" left ")"
    print "" > file[crate]
    print "case" NR " : " left " ≡ " answer(right) > file[crate]
    print "unfolding read_answer evaluate_answer value_answer explain_answer" > file[crate]
    print "case" NR " = refl" > file[crate]
}
