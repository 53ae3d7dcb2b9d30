#!/bin/sh
# Lists what nothing cites in the crates' .antt and .rt files, and answers 1 if there is any: names that a `use` brings
# into a file and that the file doesn't use, and definitions and laws that no other line cites. What only the lines of
# such a law cite is listed too, and said to be. What docs/PROMISES.md names is cited, and so is what the kit reads: in
# proofs/F the answers and invariants that have the type of their goal, and the F_spec of a Proof.antt.
#
#   unused.sh               over this project
#   unused.sh --self-test   over samples: a clean one, and one with each kind planted
set -eu
cd "$(dirname "$0")/.."
read_by=$PWD/scripts/unused.awk

list() { # FOLDER
    status=0
    found=$(find "$1"/crates/*/src "$1"/crates/*/specs "$1"/crates/*/proofs -name '*.antt' -o -name '*.rt' | LC_ALL=C sort |
        LC_ALL=C xargs awk -v root="$1" -f "$read_by" "$1/docs/PROMISES.md") || status=1
    echo "$found" | LC_ALL=C sort -t : -k 1,1 -k 2,2n -k 3
    return $status
}

# A sample whose every name is used, in each way that a name can be. What is in out/ is rt's.
sample() { # FOLDER
    mkdir -p "$1/docs" "$1/crates/a/out" "$1/crates/a/src" "$1/crates/a/specs" "$1/crates/a/proofs/do_it" "$1/crates/a/proofs/parts/go_on"
    cat >"$1/docs/PROMISES.md" <<'END'
The law `promised`, and `a, listed`.
END
    cat >"$1/crates/a/specs/Sums.antt" <<'END'
-- What is summed.
use Kit.List.{List, [], ◌∷◌ as cons}
use Kit.Bool.{Bool, true, false}

infix 4 ◌⇒◌
pub data Rule : Type 0 where
  ◌⇒◌ : Bool → List → Rule

pub record Pair : Type 0 where
  pub left : Bool
  pub right : Bool

abbrev pub total : List → Bool
total [] = true
total (cons x xs) = total xs

abbrev pub pair : Pair → Bool
pair p = false
END
    cat >"$1/crates/a/proofs/Laws.antt" <<'END'
-- Laws.
use Kit.Path.{◌≡◌, refl, sym}
use Kit.Choice.{if◌then◌else◌}
use Kit.List.{List, ◌++◌}
use Kit.List.Member
use Rattle.a.specs.Sums.{Rule, ◌⇒◌, total, pair as paired}
use Rattle.a.specs.declared.Verdict.TheVariants as verdict

pub promised : (xs : List) → total (xs ++ xs) ≡ total xs
unfolding total
promised xs = helps xs verdict.Good
  where
    helps : (xs : List) → total xs ≡ total xs
    helps xs = sym (Member.head refl)

module _ (xs : List) where
  pub listed : Rule → if total xs then Rule else Rule
  listed (b ⇒ v) = paired (shared xs)

shared : List → List
shared xs = xs

pub by_attribute : List → List
by_attribute xs = xs

pub by_module : List → Rule
by_module xs = xs
END
    cat >"$1/crates/a/proofs/do_it/Proof.antt" <<'END'
use Rattle.a.proofs.Laws as laws
use Kit.Rules.{rules}

pub do_it_spec : laws.promised
do_it_spec = search (rules, laws.by_module.left)
END
    cat >"$1/crates/a/proofs/parts/go_on/Answers.antt" <<'END'
use Rattle.a.specs.Sums.{pair}
use Rattle.a.proofs.parts.go_on.Goals as goal

pub overflow_add-n : goal.overflow_add-n
overflow_add-n c = pair c.args.p
END
    cat >"$1/crates/a/proofs/parts/go_on/Invariants.antt" <<'END'
use Kit.Nat.{◌-◌, length}
use Rattle.a.proofs.parts.go_on.Given as given

abbrev pub decreases-loop-i : given.decreases-loop-i
decreases-loop-i l = length l.xs - l.i
END
    cat >"$1/crates/a/src/lib.rt" <<'END'
// Does it.
use b::Field;
ghost use Kit.Path.{◌≡◌};
ghost use Kit.Nat.{◌<◌};
ghost use Kit.Bool.{true};
ghost use Kit.Limits.{limit, alone};
ghost use Rattle.a.specs.Sums.{total, Pair};

#[tactic(auto, using(crate::proofs::Laws::by_attribute))]
pub fn do_it(f: Field, g: &Field) -> Pair
    requires small { g.now < 8 }
    ensures { record { left = true; right = result.right } ≡
        total f.now × Pair }
{
    f.0
}

struct Held {
    of: u8,
    ghost fits: { of ≡ limit } by { alone of },
}
END
    echo 'use b::Spare;' >"$1/crates/a/out/lib.rt"
}

# Puts an import after a file's first line.
import() { # FILE LINE
    { head -n 1 "$1" && echo "$2" && tail -n +2 "$1"; } >"$1.new"
    mv "$1.new" "$1"
}

self_test() {
    work=$(mktemp -d)
    trap 'rm -rf "$work"' EXIT
    sample "$work/clean"
    list "$work/clean" >"$work/said" || {
        echo "unused: the clean sample isn't clean:" >&2
        cat "$work/said" >&2
        exit 1
    }

    planted=$work/planted/crates/a
    sample "$work/planted"
    import "$planted/src/lib.rt" 'use b::Spare;'
    import "$planted/src/lib.rt" 'ghost use Kit.Nat.{f, now};'
    import "$planted/proofs/do_it/Proof.antt" 'use Kit.Other as other'
    import "$planted/proofs/parts/go_on/Answers.antt" 'use Kit.Laws as other'
    import "$planted/proofs/Laws.antt" 'use Kit.A.{inComment, help, left, xs_again, ◌⊞◌, [], name as other}'
    cat >>"$planted/proofs/Laws.antt" <<'END'

-- inComment stands in a comment only, help in a longer name, left as a field, and xs_again in two names
again : List → List
again xs = again ((xs).left xs.left)

only-by-again : List → List
only-by-again xs = record { left = xs }

calls : List → List
calls xs = only-by-calls xs

only-by-calls : List → List
only-by-calls xs = xs

module _ (xs : List) where
  pub inner : List
  inner = helped
    where
      helped : List
      helped = xs
      unhelped : List
      unhelped = xs
END
    cat >>"$planted/specs/Sums.antt" <<'END'

abbrev pub unsaid : Bool
unsaid = true

abbrev pub said : Bool
said = true
END
    cat >>"$planted/proofs/parts/go_on/Answers.antt" <<'END'

hidden : goal.hidden
hidden c = pair

pub misnamed : goal.named
misnamed c = pair

pub elsewhere : other.elsewhere
elsewhere c = pair
END
    sed 's/overflow_add-n/misplaced/g' "$work/clean/crates/a/proofs/parts/go_on/Answers.antt" >"$planted/proofs/Answers.antt"
    sed -i 's/total f.now/total said/; s/total, Pair/total, said, Pair/' "$planted/src/lib.rt"
    if list "$work/planted" >"$work/found"; then
        echo "unused: the planted sample is called clean" >&2
        exit 1
    fi
    sed 's/^crates.a.//; s/:[0-9]*:/:/' "$work/found" | LC_ALL=C sort >"$work/said"
    LC_ALL=C sort >"$work/want" <<'END'
src/lib.rt: the import Spare is used by nothing
src/lib.rt: the import f is used by nothing
src/lib.rt: the import now is used by nothing
proofs/do_it/Proof.antt: the import other is used by nothing
proofs/Laws.antt: the import inComment is used by nothing
proofs/Laws.antt: the import help is used by nothing
proofs/Laws.antt: the import left is used by nothing
proofs/Laws.antt: the import xs_again is used by nothing
proofs/Laws.antt: the import ◌⊞◌ is used by nothing
proofs/Laws.antt: the import [] is used by nothing
proofs/Laws.antt: the import other is used by nothing
proofs/Laws.antt: again is cited by nothing
proofs/Laws.antt: only-by-again is cited by nothing
proofs/Laws.antt: calls is cited by nothing
proofs/Laws.antt: only-by-calls is cited by nothing but what is listed
proofs/Laws.antt: inner is cited by nothing
proofs/Laws.antt: helped is cited by nothing but what is listed
proofs/Laws.antt: unhelped is cited by nothing
specs/Sums.antt: unsaid is cited by nothing
proofs/Answers.antt: misplaced is cited by nothing
proofs/Answers.antt: the import goal is used by nothing but what is listed
proofs/Answers.antt: the import pair is used by nothing but what is listed
proofs/parts/go_on/Answers.antt: hidden is cited by nothing
proofs/parts/go_on/Answers.antt: misnamed is cited by nothing
proofs/parts/go_on/Answers.antt: elsewhere is cited by nothing
proofs/parts/go_on/Answers.antt: the import other is used by nothing but what is listed
END
    diff "$work/want" "$work/said" >&2 || {
        echo "unused: < was planted and isn't found, > is found and wasn't planted" >&2
        exit 1
    }
    echo "unused: the clean sample is clean, and $(wc -l <"$work/want") planted ones are found"
}

case ${1:-} in
'') list . ;;
--self-test) self_test ;;
*)
    sed -n '2,8s/^# \{0,1\}//p' "$0" >&2
    exit 2
    ;;
esac
