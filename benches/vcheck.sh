#!/usr/bin/env bash
# Runs the proved program vcheck on scripts that are written to files: 100,000 declarations of each of four forms; 1,000,
# 10,000 and 80,000 lemmas on a conjunction, each by six steps; 10,000 lemmas by quantifiers, apply and rewrite; 1,000 large
# definitions, each with a lemma that unfolds it, and lemmas on 14 doublings; one proof of 500 to 4,000 steps that has as many
# hypotheses, small and large ones. Prints microseconds of processor time a sentence, and the most memory that was in use. How
# many lines are written is compared with how many are wanted. It needs Python and GNU `time`.
set -eu
top=$(cd "$(dirname "${BASH_SOURCE[0]}")/.." && pwd)
work=$(mktemp -d)
trap 'rm -rf "$work"' EXIT
"$top/vcheck" </dev/null
python3 - "$work" <<'END'
import sys

work = sys.argv[1]
# The longest conjunction that a sentence may say: at most 256 operators are open at once.
LONGEST = 250


def write(name, what, sentences):
    with open(f"{work}/{name}.script", "w") as script:
        script.write("\n".join(sentences) + "\n")
    with open(f"{work}/{name}.words", "w") as words:
        words.write(f"{what}\n{len(sentences)}\n{sum(it.split()[0] in DECLARES for it in sentences)}\n")


DECLARES = ("Parameter", "Axiom", "Definition", "Lemma")

FORMS = {"a predicate": "Parameter n{} : T -> Prop.", "a formula that is stated": "Axiom n{} : forall x : T, P x -> P (f x).",
         "a definition": "Definition n{} (x : T) : Prop := P (f x) /\\ P x.", "an unknown name": "Axiom n{} : forall x : T, P x -> Q (f x)."}
for number, (what, form) in enumerate(FORMS.items()):
    sentences = ["Parameter T : Set.", "Parameter P : T -> Prop.", "Parameter f : T -> T."]
    write(f"0_form_{number}", f"100000 times {what}", sentences + [form.format(n) for n in range(100_000)])

for count in (1_000, 10_000, 80_000):
    sentences = ["Parameter A : Prop.", "Parameter B : Prop."]
    for n in range(count):
        sentences += [f"Lemma c{n} : A /\\ B -> B /\\ A.", "Proof.", "intro h.", "destruct h as [a b].", "split.", "exact b.", "exact a.", "Qed."]
    write(f"1_lemmas_{count:06}", f"{count} lemmas on a conjunction", sentences)

sentences = ["Parameter T : Set.", "Parameter P : T -> Prop.", "Parameter Q : T -> Prop.", "Parameter f : T -> T.",
             "Axiom turn : forall x : T, f (f x) = x.", "Axiom step : forall x : T, P x -> P (f x).", "Axiom go : forall x : T, P x -> Q x."]
for n in range(10_000):
    sentences += [f"Lemma q{n} : forall x : T, P x -> Q (f (f (f x))).", "Proof.", "intros x p.", "rewrite turn.", "apply go.", "apply step.",
                  "exact p.", "Qed."]
write("2_quantifiers", "10000 lemmas by quantifiers, apply and rewrite", sentences)

sentences = ["Parameter T : Set.", "Parameter P : T -> Prop.", "Parameter A : Prop."]
body = " /\\ ".join(["P x"] * LONGEST)
for n in range(1_000):
    sentences += [f"Definition d{n} (x : T) : Prop := {body}.", f"Lemma u{n} : forall x : T, d{n} x -> P x.", "Proof.", "intros x h.",
                  f"unfold d{n} in h.", "destruct h as [a b].", "exact a.", "Qed."]
write("3_definitions", f"1000 definitions of {3 * LONGEST - 1} nodes, each with a lemma", sentences)

sentences = ["Parameter A : Prop.", "Definition e0 : Prop := A."]
sentences += [f"Definition e{n} : Prop := e{n - 1} /\\ e{n - 1}." for n in range(1, 15)]
for n in range(1_000):
    sentences += [f"Lemma v{n} : e14 -> e13 /\\ e13.", "Proof.", "intro h.", "exact h.", "Qed."]
write("4_doublings", "1000 lemmas on 14 doublings", sentences)

for count in (500, 1_000, 2_000, 4_000):
    for size, body in ((2, "P x"), (3 * LONGEST - 1, body)):
        sentences = ["Parameter T : Set.", "Parameter P : T -> Prop.", f"Axiom some : exists x : T, {body}.", f"Lemma long : exists x : T, {body}.", "Proof."]
        sentences += [f"destruct some as [x{n} p{n}]." for n in range(count)]
        sentences += ["exists x0.", "exact p0.", "Qed."]
        write(f"5_hypotheses_{count:04}_{size}", f"one proof of {count} steps, each with a variable and a hypothesis of {size} nodes", sentences)
END
for script in "$work"/*.script; do
    { read -r what; read -r sentences; read -r declarations; } <"${script%.script}.words"
    # (the status is 1 where the script has faults)
    /usr/bin/time -q -f '%U %S %e %M' -o "$work/times" "$top/crates/vcheck/out/vcheck" <"$script" >"$work/output" || [ $? = 1 ]
    written=$(wc -l <"$work/output")
    [ "$written" = "$declarations" ] || { echo "$what: $written lines, and not $declarations" >&2; exit 1; }
    read -r user system seconds memory <"$work/times"
    awk -v what="$what" -v sentences="$sentences" -v user="$user" -v system_time="$system" -v seconds="$seconds" -v memory="$memory" \
        'BEGIN { printf "%s, %d sentences: %.2f microseconds a sentence, %s seconds, %d KB\n", what, sentences, (user + system_time) * 1e6 / sentences, seconds, memory }'
done
