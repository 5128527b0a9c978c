#!/bin/sh
# Sees that tests/contracts.sh refuses a fault of each sort, and passes the right form beside it: each is planted in a copy of parts of four
# crates and of the C header, and taken out again.
set -eu
cd "$(dirname "$0")/.."
copy=$(mktemp -d)
trap 'rm -rf "$copy"' EXIT
trap 'exit 1' HUP INT TERM
mkdir -p "$copy/tests" "$copy/hosts/c"
for part in message/specs/Outcome.antt slots/specs slots/src slots/must-fail host_deliver/src rehearsal/src; do
    mkdir -p "$copy/crates/${part%/*}"
    cp -R "crates/$part" "$copy/crates/$part"
done
sed -n '/^[a-z].* paxos_commit_deliver(/,/;/p' hosts/c/paxos_commit.h >"$copy/hosts/c/paxos_commit.h"
grep -E '^(message|slots|host_deliver|rehearsal)( staticlib)?:' crates.txt >"$copy/crates.txt"
edits=$(find "$copy/crates" -name '*.edit' | wc -l)
echo $((edits + 4)) >"$copy/tests/passed"
code=crates/slots/src/lib.rt
spec=crates/slots/specs/Table.antt
bad=0 tried=0

# The copy's sources are refused with a line that has these words, or with `nothing` they are not.
see() { # WORDS
    tried=$((tried + 1))
    if said=$(tests/contracts.sh sources "$copy" 2>&1); then said=nothing; fi
    case $said in
    *"$1"*) ;;
    *) printf 'contracts-selftest: expected `%s`, and the answer was: %s\n' "$1" "$said"; bad=1 ;;
    esac
}

# Lines put at the end of a file, seen, and taken out.
plant() { # FILE WORDS TEXT
    printf '%s\n' "$3" >>"$copy/$1"
    see "$2"
    cp "$1" "$copy/$1"
}

# A file edited by sed, seen, and put back.
damage() { # FILE WORDS SCRIPT
    sed "$3" "$1" >"$copy/$1"
    see "$2"
    cp "$1" "$copy/$1"
}

# A public function with this `ensures`, and one with a parameter lent for change.
promise() { plant "$code" "$1" "pub fn f(x: u8, s: &[u8]) -> u8 ensures { $2 } { x }"; } # WORDS CLAUSE
change() { plant "$code" "$1" "pub fn f(x: u8, t: &mut [u8]) ensures { $2 } { t[0] = x; }"; } # WORDS CLAUSE

see nothing

# Functions: their clauses are found wherever they stand, and comments and strings are none.
plant "$code" nothing '// pub fn f(x: u8) requires lem axiom'
plant "$code" 'function f has a `requires`' 'pub fn f(x: u8) -> u8 requires { x < 1 } ensures { result ≡ x } { x }'
plant "$code" 'function f has a `requires`' 'pub fn f(x: u8) -> u8
    requires low { x < 1 }
    ensures { result ≡ x }
{ x }'
plant "$code" 'function f has a `requires`' 'pub fn f(x: u8) -> u8 requires* { emp } ensures { result ≡ x } { x }'
plant "$code" 'function f has no `ensures`' 'pub fn f(x: u8) -> u8 { x }'
plant "$code" 'function f has no `ensures`' 'pub fn f(
    x: &mut [u8; 4],
)
{
    g(b"ensures {", x)
}'
plant "$code" 'function f has no `ensures`' '#[unsafe(no_mangle)] pub extern "C" fn f(x: u8) -> u8 { x }'
plant "$code" 'function f has no `ensures`' 'pub(crate) const fn f(x: u8) -> u8 { x }'
plant "$code" 'function f has no `ensures`' 'impl S { pub fn f(self) -> u8 { self.x } }'
plant "$code" 'function f has no `ensures`' 'mod inner { pub fn f(x: u8) -> u8 { x } }'
plant "$code" 'function g has no `ensures`' "pub fn f<'a>(x: &'a [u8]) -> u8 ensures { result ≡ size x.now } { b'\\'' }
pub fn g(x: u8) {}"
plant crates/rehearsal/src/main.rt nothing 'pub fn f(x: u8) -> u8 { x }'
mkdir -p "$copy/crates/slots/src/src"
touch "$copy/crates/slots/src/src/main.rt"
plant "$code" 'function f has no `ensures`' 'pub fn f(x: u8) -> u8 { x }'
rm -r "$copy/crates/slots/src/src"
damage "$code" 'function is_table_length has no `ensures`' '/^pub fn is_table_length(/,/^{/{/ensures/d;}'
plant "$code" 'a `ghost` that is no `ghost use`' 'pub fn f(x: u8) -> u8 ghost n: { ℕ } ensures { result ≡ x } { x }'
plant "$code" 'function g has no `ensures`' 'fn f(x: u8) -> u8 ghost n: { ℕ } { x }
pub fn g(x: u8) -> u8 { x }'
plant "$code" 'a parameter that is no plain name' 'pub fn f((x): u8, _: u8) -> u8 ensures { result ≡ x } { x }'
plant "$code" 'function f does not name x in' 'pub fn f<F: Fn(u8) -> u8, T>(g: F, x: u8) -> u8 ensures { result ≡ called g } { g(x) }'
plant "$code" nothing 'pub fn f<F: Fn(u8) -> u8, T>(g: Pair<F, T>, x: u8) -> u8 ensures { result ≡ called g x } { g(x) }'
plant "$code" 'function f does not name self in' 'impl S { pub fn f(self, x: u8) -> u8 ensures { result ≡ x } { x } }'
plant "$code" 'what self holds at entry' 'impl S { pub fn f(&self, x: u8) -> u8 ensures { result ≡ add x self } { x } }'
plant "$code" 'what self holds at exit' 'impl S { pub fn f(&mut self) -> u8 ensures { result ≡ size self.old } { 0 } }'
plant "$code" '`old` means what a clause says' 'pub struct S { pub x: u8, pub old: u8 }'
plant "$code" '`now` means what a clause says' 'struct S { now: u8 }'
plant "$code" nothing 'fn f() -> S { S::new(old::now) }'
plant "$code" 'a type under another name' 'type u8 = u16;'
plant "$code" 'a type under another name' 'pub struct bool { x: u8 }'
plant "$code" 'a `use` under another name' 'use message::Read as Written;'

# Exports: the C header has each of them as it is, and no other.
call=crates/host_deliver/src/lib.rt
damage "$call" 'the C header declares' 's/order: u16/order: u8/'
damage "$call" 'the C header declares' 's/leaders: u8,$/order: u16,/;t;s/order: u16,$/leaders: u8,/'
damage "$call" 'the C header declares' 's/network: &mut \[u8\]/network: \&[u8]/'
damage "$call" 'the C header declares' 's/-> u32$/-> u64/'
damage "$call" 'the C header declares' 's/^    bytes: &\[u8\],$/&\n    len: u8,/'
damage "$call" 'which is not exported' 's/^pub extern "C" fn/pub fn/'
damage "$call" 'does not declare paxos_commit_delivery' 's/fn paxos_commit_deliver(/fn paxos_commit_delivery(/'
damage "$call" 'the C header declares' 's/bytes: &\[u8\]/bytes: \&[u16]/'
damage "$call" 'the C header declares' 's/bytes: &\[u8\]/bytes: \&[u8; 4]/'
damage "$call" 'the C header declares' "s/bytes: &\\[u8\\]/bytes: \\&'a mut [u8]/"
plant "$code" 'paxos_commit_deliver is exported twice' 'pub extern "C" fn paxos_commit_deliver(x: u8) -> u32 ensures { result ≡ x } { x as u32 }'
cp "$copy/hosts/c/paxos_commit.h" "$copy/header"
declared() { # WORDS LINES
    printf '%s\n' "$2" >>"$copy/hosts/c/paxos_commit.h"
    see "$1"
    cp "$copy/header" "$copy/hosts/c/paxos_commit.h"
}
declared nothing '/* uint32_t paxos_commit_none(uint8_t x); */'
declared 'which is not exported' 'uint32_t paxos_commit_none(uint8_t x);'
declared 'which is not exported' 'uint32_t Paxos_Commit (uint8_t x);'
declared 'declares paxos_commit_deliver twice' 'uint32_t paxos_commit_deliver(uint8_t x);'
declared 'hides what is declared' '#define uint8_t uint16_t'
declared 'hides what is declared' '#if 0'
declared 'hides what is declared' '#ifdef __cplusplus
uint32_t paxos_commit_none(uint8_t x);
#endif'
declared 'a line that goes on' '#define PAXOS_COMMIT_X 1 \'

# What a public `ensures` names: the result, each parameter, and what is lent at entry and at exit.
promise nothing 'result ≡ add x s.now'
promise nothing '(result ≡ add x s.now) × (result ≤ sum_of (λ i. at s.now i))'
promise nothing 'result ≡ add x s.entry.now'
promise 'f does not name its result' 'x ≡ add x s.now'
promise 'f does not name x in' 'result ≡ size s.now'
promise 'f does not name s in' 'result ≡ add x'
promise 'what s holds at entry' 'result ≡ add x s.at'
change nothing 't.new ≡ put x t.old'
change nothing 't.exit.now ≡ put x t.entry.now'
change 'what t holds at exit' 't.old ≡ put x t.old'
change 'what t holds at entry' 't.new ≡ put x t'
change 'what t holds at entry' 't.new ≡ put x (t.exit)'
plant "$code" nothing 'pub fn f(max_len: u8) -> u8 ensures { result ≡ max_len } { max_len }'
plant "$code" 'f does not name max_len in' 'pub fn f(max_len: u8) -> u8 ensures { result ≡ max-len } { max_len }'
plant "$code" nothing 'pub fn f(data: u8) -> u8 ensures { result ≡ «data» } { data }'
plant "$code" 'f does not name data in' 'pub fn f(data: u8) -> u8 ensures { result ≡ 2 } { data }'

# Several clauses, each with a name: together they name all, and each is read.
clauses() { plant "$code" "$1" "pub fn f(x: u8, s: &[u8], t: &mut [u8]) -> u8
    $2
    $3
{ x }"; } # WORDS CLAUSE CLAUSE
clauses nothing 'ensures sum { result ≡ add x s.now }' 'ensures stored { t.new ≡ put x t.old }'
clauses 'f does not name x in' 'ensures sum { result ≡ size s.now }' 'ensures stored { t.new ≡ put 0 t.old }'
clauses 'f does not name its result' 'ensures sum { 2 ≡ add x s.now }' 'ensures stored { t.new ≡ put x t.old }'
clauses 'what t holds at exit' 'ensures sum { result ≡ add x s.now }' 'ensures stored { t.old ≡ put x s.now }'
clauses 'function f has a `requires`' 'requires low { x < 1 }' 'ensures sum { result ≡ add (add x s.now) (put t.old t.new) }'
clauses 'same on both sides of its `ensures`' 'ensures sum { result ≡ add x s.now }' 'ensures stored { put x t.old t.new ≡ put x t.old t.new }'
clauses 'an `ensures*`' 'ensures sum { result ≡ add x s.now }' 'ensures* stored { holds x t.old t.new }'
clauses 'gives `length`' 'ensures sum { result ≡ add x s.now }' 'ensures stored { t.new ≡ put (λ length. x) t.old }'

# What it claims: an equation of two things, an order, or a definition that says something.
promise 'same on both sides of its `ensures`' 'add result x s.now ≡ (add result x s.now)'
promise 'same on both sides of its `ensures`' '(result ≡ result) × (x ≡ size s.now)'
promise 'what it leaves on both sides' 'result ≡ cond true result (add x s.now)'
change 'what it leaves on both sides' 't.new ≡ keep x t.old t.new'
promise 'an `ensures` with `→`' 'x < 0 → result ≡ add x s.now'
promise 'an `ensures` with `⊎`' '(result ≡ add x s.now) ⊎ (x ≡ x)'
plant "$code" 'an `ensures*`' 'pub fn f(x: u8, s: &[u8]) -> u8 ensures* { ⌜ result ≡ x ⌝ -∗ ⌜ result ≡ add x s.now ⌝ ∗ emp } { x }'
promise 'an `ensures` with `⌜`' '⌜ result ≡ add x s.now ⌝'
promise 'no equation, no order and no claim' 'Good result x s.now'
promise 'an `ensures` with `⊤`' '⊤'
plant "$code" 'no equation, no order and no claim' 'ghost use Rattle.std.specs.Prelude.{IfOk};
pub fn f(x: u8) -> R ensures { IfOk result (λ y. y ≡ x) } { x }'
plant "$code" nothing 'ghost use Rattle.std.specs.Io.KnownBytes.{Appends};
pub fn f<W: Write>(w: &mut W, x: u8) -> u8 ensures { Appends (W.contents w.old) (W.contents w.new) (some result x) } { x }'
plant "$code" nothing 'ghost use Rattle.slots.specs.Table.{Good};
pub fn f(x: u8) -> u8 ensures { Good result x } { x }'
good() { # WORDS DEFINITION
    printf '%s\n' 'ghost use Rattle.slots.specs.Table.{Good};' 'pub fn f(x: u8) -> u8 ensures { Good result x } { x }' >>"$copy/$code"
    plant "$spec" "$1" "pub Good : ℕ → ℕ → Type 0
$2"
    cp "$code" "$copy/$code"
}
good nothing 'Good r x = r ≡ x'
good nothing 'Good zero x = x < 1
Good (suc r) x = r ≡ x'
good '`Good` does not use `r`' 'Good r x = x < 5'
good '`Good` does not use `r`' 'Good zero x = x < 1
Good (suc r) x = x < 1'
good '`Good` is `Unit` whatever' 'Good r x = Unit {0}'
plant "$spec" '`Good` is `Unit` whatever' 'Good zero x = Unit
Good (suc r) x = (Unit {0}) × Unit {0}'
plant "$spec" '`Good` is `Unit` whatever' 'Good r x = ⊥ → r ≡ x'
plant "$spec" '`Good` is `Unit` whatever' 'Good r = ℕ → Unit {0}'
plant "$spec" nothing 'Good [] = Unit {0}
  where
    go : ℕ
    go = 2
Good (x ∷ xs) = (x ≡ 0) × Good xs'
plant "$spec" '`sum` is the same whatever' 'abbrev pub sum : ℕ → ℕ
sum zero = 0
sum (suc n) = 0'
plant "$spec" '`number_in` does not use `bytes`' 'abbrev pub number_in : List ℕ → ℕ
number_in bytes = 0'
plant "$spec" '`checked` has one value' 'pub checked : List ℕ → Unit {0}'
plant "$spec" '`One` has one value' 'pub record One : Type 0 where'
plant "$spec" '`One` has one value' 'pub data One : Type 0 where
  one : One'
plant "$spec" nothing 'pub data Two : Type 0 where
  one two : Two'
plant "$spec" 'both sides of `≡`' 'law : (x : ℕ) → x < 2 → (f x) ≡ f x
law x = ?'
plant "$spec" nothing 'law : (x : ℕ) → x < 2 → f x ≡ f x + 0'

# A clause: what it binds hides nothing, and it has no comment.
promise '`result` hides' 'result ≡ sum_of (λ result. add result x s.now)'
promise '`s` hides' 'result ≡ sum_of (λ s. add x s.now)'
promise 'a clause with `let`' 'let length = x in result ≡ add x (length s.now)'
promise 'gives `length`' 'result ≡ sum_of (λ length. add length x s.now)'
promise 'gives `length`' '(length : ℕ) → result ≡ add length x s.now'
promise '`x` hides' 'result ≡ sum_of (λ x. add x x s.now)'
promise 'gives `length`' 'result ≡ add x s.length'
promise '«length» is quoted' 'result ≡ add x («length» s.now)'
promise '«max_len» is quoted' 'result ≡ add x («max_len» s.now)'
promise 'a comment in a clause' 'result ≡ x -- add x s.now'
promise 'a comment in a clause' 'result ≡ {- add x s.now -} x'
promise 'a comment in a clause' 'result ≡ x // add x s.now
    '
plant "$code" '`is_zero` hides' 'ghost use Rattle.slots.specs.Table.{is_zero};
fn f(is_zero: u8) -> u8 ensures { result ≡ is_zero } { is_zero }'
plant "$code" '`result` hides' 'fn f(result: u8) -> u8 ensures { result ≡ result } { result }'
plant "$code" 'comment in the head of a function' 'pub fn f(x: u8) -> u8 // ensures nothing
    ensures { result ≡ x }
{ x }'
plant "$code" 'comment in the head of a function' 'pub fn f(
    x: u8, // any
) -> u8 ensures { result ≡ x } { x }'
plant "$code" nothing 'pub fn f(x: u8) -> u8 ensures { result ≡ x } { // any
    x }'

# What a text seems to be.
plant "$code" 'does not end with its line' 'pub /* a */ fn f(x: u8) -> u8 { x }'
plant "$code" 'a string that does not end' 'fn f() -> u8 { g(b"
") }'
plant "$code" 'a raw string' 'fn f() -> u8 { g(br"\") }'
plant "$spec" 'does not end with its line' 'f : {- of no -} ℕ'
plant "$spec" nothing '-- lem axiom length : trusted {- "'
plant "$spec" 'gives `length`' 'length--of : ℕ
length : ℕ'
plant "$spec" 'gives `length`' 'f = ascii "--" length : ℕ'
plant "$spec" 'do not use' 'lеngth : ℕ'
plant "$spec" 'do not use' 'f : (a : ℕ) → a ≣ a'
plant "$code" 'do not use' "$(printf 'fn f(x:\302\240u8) {}')"
plant "$code" 'do not use' "$(printf '// \342\200\256 of')"
plant "$spec" 'do not use' "$(printf 'f :\tℕ')"
plant "$spec" '`r≡x` is declared or bound, and is no word' 'r≡x : ℕ → Type 0'
plant "$spec" '`Iength` looks like `length`' 'Iength : List ℕ → ℕ'
plant "$spec" '`1O` is declared or bound, and is no word' '1O : ℕ'
plant "$spec" '`n-1` is declared or bound, and is no word' 'law : (n n-1 : ℕ) → n < n-1'
plant "$spec" '`length_` is declared or bound, and is no word' 'length_ : ℕ'
plant "$spec" '`x__y` is declared or bound, and is no word' 'x__y : ℕ'
plant "$spec" '`get-or` looks like `get_or`' 'get-or : ℕ'
plant "$spec" 'do not use' "f′ : ℕ"
plant "$spec" nothing "f'₀-of_all : ℕ"

# Names of the library and of the prelude: imported, declared, bound.
plant "$code" nothing 'ghost use lib.ListN.{
    length,
};'
plant "$code" nothing 'ghost use Rattle.std.specs.Prelude.{replicate, get_or};'
plant "$code" 'gives `◌≡◌`' 'ghost use Rattle.slots.specs.Table.{◌≡◌};'
plant "$code" 'gives `◌<◌`' 'ghost use Rattle.slots.specs.Table.{before as ◌<◌};'
plant "$code" 'gives `◌<◌`' 'fn f() {} ghost
  use Rattle.slots.specs.{Table.{is_zero,
  before
  as ◌<◌}};'
plant "$code" 'does not name each thing' 'ghost use Rattle.slots.specs.Table;'
plant "$code" '`◌≡◌and◌` is an operator' 'ghost use Rattle.slots.specs.Table.{◌≡◌and◌};'
plant "$code" 'gives `IfOk`' 'ghost use Rattle.slots.specs.Table.{IfOk};'
plant "$code" 'gives `All`' 'ghost use Rattle.slots.specs.Table.{all as All};'
plant "$code" 'gives `length`' 'ghost use Rattle.std.specs.Prelude.{take as length};'
plant "$code" '`length` means' 'fn f(length: u8) -> u8 ensures { result ≡ length } { x }'
plant "$code" nothing 'fn f(x: T) -> u8 { x.take(2).drop() + mem::take(x) }'
plant "$spec" nothing 'use lib.ListN.{length}'
plant "$spec" nothing 'use Rattle.std.proofs.Math.ListN.{length}'
plant "$spec" nothing 'f = mathlib.Core.List.Memᴰ.head refl'
plant "$spec" 'gives `length`' 'f = Rattle.message.specs.Form.length xs'
plant "$spec" 'gives `length`' 'use lib.Seq.{length}'
plant "$spec" 'gives `length`' 'use lib.ListN.{take as length}'
plant "$spec" 'gives `⊥`' 'use Rattle.message.specs.Form.{Unit as ⊥}'
plant "$spec" 'gives `Unit`' 'use Rattle.message.specs.Form.{Unit}'
plant "$spec" 'gives `map`' 'use Rattle.message.specs.Form.{map}'
plant "$spec" 'gives `◌≤◌`' 'pub use Rattle.message.specs.Form.{
  ◌≤◌}'
plant "$spec" 'another thing under the name `is_table`' 'use Rattle.message.specs.Form.{is_known as is_table}'
plant "$spec" nothing 'use Rattle.message.specs.Form.{is_known as is_well_known}'
plant "$spec" 'does not name each thing' 'use Laws.*'
plant "$spec" '`lib` is a library' 'use Rattle.message.specs.Form as lib'
plant "$spec" '`mathlib` is a library' 'mod mathlib'
plant "$spec" '`Rattle` is a library' 'use Rattle.slots.specs.Table as Rattle'
plant "$spec" '`package` is a form' 'use package.lib.ListN.{length}'
plant "$spec" 'gives `◌≡◌`' 'pub ◌≡◌ : ℕ → ℕ → Type'
plant "$spec" 'gives `◌<◌`' 'abbrev pub ◌<◌ : ℕ → ℕ → Type'
plant "$spec" '`◌≡◌and◌` is declared' 'pub ◌≡◌and◌ : ℕ → ℕ → ℕ → Type 0'
plant "$spec" '`_≡_` is declared' 'pub _≡_ : ℕ → ℕ → Type 0'
plant "$spec" '`infix` is a form' 'infix 4 ◌≡◌'
plant "$spec" '`pattern` is a form' 'pattern abbrev pub none : ℕ'
plant "$spec" 'gives `IfOk`' 'unfoldable pub IfOk : ℕ → ℕ'
plant "$spec" 'gives `⊥`' 'abbrev pub ⊥ : Type 0'
plant "$spec" 'gives `⊥`' 'abbrev pub
  ⊥
  {κs}
  : Type 0'
plant "$spec" 'gives `tt`' 'pub data Good : Type 0 where
  bad tt : Good'
plant "$spec" 'gives `Unit`' 'pub record Unit : Type 0 where'
plant "$spec" '«⊥» is quoted' 'abbrev pub «⊥» : Type 0'
plant "$spec" '«length» is quoted' 'f = «length» xs'
plant "$spec" nothing 'f c = c.«open».max_len'
plant "$spec" '«max_len» is quoted' 'f c = c.«open».«max_len»'
plant "$spec" 'gives `length`' 'f xs length = length'
plant "$spec" 'gives `length`' 'f {n = length} = length'
plant "$spec" 'gives `length`' 'f = λ length. length'
plant "$spec" 'gives `length`' 'f = λ (x, length). length'
plant "$spec" 'gives `length`' 'f : (x length : ℕ) → ℕ'
plant "$spec" 'gives `length`' 'f : (x
    length : ℕ) → ℕ'
plant "$spec" 'gives `⊥`' 'module _ {⊥ : Type 0} where'
plant "$spec" 'gives `length`' 'f = let length = 0 in length'
plant "$spec" 'gives `length`' 'f = let (x, length) = y in length'
plant "$spec" 'gives `length`' 'f = let length : ℕ → ℕ = g in length'
plant "$spec" 'gives `length`' 'f = g
  where
    length : ℕ'
plant "$spec" 'gives `length`' 'f = g where go : ℕ
            length : ℕ'
plant "$spec" 'gives `length`' 'f p = let record { y = length; x = a } = p in length'
plant "$spec" 'gives `length`' 'f x = elim x [ [] ↦ 0 | length ∷ xs ↦ length ]'
plant "$spec" nothing 'f x = elim x [ [] ↦ 0 | y ∷ ys ↦ length ys ]'
plant "$spec" 'gives `length`' 'f x = coe 0 1 (length. x) x'
plant "$spec" 'gives `length`' 'f x = Table.length x'
plant "$spec" 'gives `length`' 'f x = x .length'
plant "$spec" 'gives `length`' 'f x = x.length'
plant "$spec" 'gives `true`' 'f x = Table.true'
plant "$spec" nothing 'f c = c.if-a-b.true'
plant "$spec" 'gives `⊥`' 'data C : Type 0 where
  red green : C
  deriving Discrete as ⊥'
plant "$spec" 'gives `⊥`' 'pub ruleset ⊥ = (refl)'
plant "$spec" 'gives `inl`' 'f inl = inl'
plant "$spec" '`open` is a form' 'open Table t using (count as length)'

# In what is stated nothing hides what its file calls so; in a proof it may, and a constructor in a pattern hides nothing.
plant "$spec" '`is_zero` hides' 'law : (is_zero : ℕ → Type 0) → is_zero 2'
plant "$spec" '`read_message` hides' 'law : f (λ read_message. read_message) < 2'
plant "$spec" '`read_message` hides' 'module _ {read_message : ℕ} where'
plant "$spec" '`read_message` hides' 'abbrev f : ℕ → ℕ
f x = let read_message = x in read_message'
plant "$spec" '`read_message` hides' 'abbrev f : ℕ → ℕ
f read_message = read_message'
plant "$spec" '`read_message` hides' 'abbrev f : ℕ → ℕ
f x = read_message x
  where
    read_message : ℕ → ℕ
    read_message y = y'
plant "$spec" nothing 'f : ℕ → ℕ
f x = let read_message = x in read_message'
plant "$spec" nothing 'abbrev f : Outcome Message → Slot
f (accepted m) = Used m
f (refused k) = Unused'

plant "$spec" '`lem` is no proof' 'f = lem'
plant "$spec" '`Axiom` is no proof' 'use Prim.Axiom.{ac}'
plant "$spec" '`axiom` is no proof' 'axiom pub f : ℕ'
plant "$spec" '`postulate` is no proof' 'postulate f : ℕ'
plant "$spec" '`trusted` is no proof' 'f = trusted'

# Files.
ln -s Table.antt "$copy/crates/slots/specs/Linked.antt"
see 'specs/Linked.antt: is no plain file'
rm "$copy/crates/slots/specs/Linked.antt"
mkfifo "$copy/tests/pipe"
see 'tests/pipe: is no plain file'
rm "$copy/tests/pipe"
touch "$copy/crates/slots/specs/Of no.antt"
see 'is no plain name'
rm "$copy/crates/slots/specs/Of no.antt"
touch "$copy/crates/slots/src/main.rt"
see 'has src/lib.rt and src/main.rt'
rm "$copy/crates/slots/src/main.rt"
see nothing
rm "$copy"/crates/slots/must-fail/*
see 'too few: crates.txt lists'

# The count: the file's number and above pass, below it fails, and so does any other last line.
number=$(cat tests/passed)
count() { # ANSWER LINE [OK]
    tried=$((tried + 1))
    printf '%s\n%s\n' "${3-rt: ok; handles allowed: none}" "$2" >"$copy/said"
    answer=enough
    tests/contracts.sh passed . "$copy/said" >/dev/null || answer=few
    [ "$answer" = "$1" ] || { echo "contracts-selftest: \`$2\` after \`${3-}\` was taken as $answer"; bad=1; }
}
count enough "$number passed, 0 failed"
count enough "$((number + 1)) passed, 0 failed"
count enough "$number passed, 0 failed (all)"
count few "$((number - 1)) passed, 0 failed"
count few "$number passed, 1 failed"
count few "$number passed, 10 failed"
count few "x$number passed, 0 failed"
count few " passed, 0 failed"
count few "rt: ok"
count few "$number passed, 0 failed (slots and the crates below alone: not the gate)"
count few "$number passed, 0 failed" "rt: FAILED: slots"
count enough "$number passed, 0 failed" "rt: ok; handles allowed: none; must-fail edits: 282 refused; every proof and must-fail edit was done in this run"
count enough "$number passed, 0 failed" "rt: ok; handles allowed: none; must-fail edits: 282 refused, 2 of them only by a limit, 0 bad; done in this run: 3 of the 52 proofs"
count few "$number passed, 0 failed" "rt: ok; handles allowed: none; must-fail edits: 281 refused, 1 bad; every proof and must-fail edit was done in this run"
count few "$number passed, 0 failed" "rt: ok; handles allowed: none; must-fail edits: 272 refused, 2 of them only by a limit, 10 bad; done in this run: 3 of the 52 proofs"

[ "$bad" -eq 0 ] || exit 1
echo "contracts-selftest: $tried tried, each as it must be"
