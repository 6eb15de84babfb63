"""What the definitions give, as lists of numbers: a module in antt (CODES), the same in Python, and how facts are written in antt."""
from landed import View
from register_model import Refused, WORD

CODES = '''-- Numbers for what the definitions give, so that they can be compared.
-- Assumes nothing.
use Rattle.std.specs.Prelude.{Bool, true, false, List, [], ◌∷◌, ◌++◌, map, ℕ, zero, suc, ◌+◌, ◌*◌, ◌/◌, ◌%◌, eqb, length, get_or, take, replicate}
use Rattle.std.proofs.Math.Option.{Option, none, some}
use Rattle.spec.specs.Basics.{pick, both, is_in}
use Rattle.spec.specs.Places.{chunks_in, size_allowed}
use Rattle.spec.specs.Header.{header_right, header_power, sum}
use Rattle.spec.specs.Words.{bytes_of}
use Rattle.spec.specs.Medium.{Action, Store, Flush, Fence, Cell, Medium, values, cell_at, run, latest, cut, settled_at}
use Rattle.spec.specs.Directory.{free_chunks}
use Rattle.spec.specs.Log.{Entry, Parsed, Wrong, Entries}
use Rattle.spec.specs.Contents.{Held, Absent, Value, highest, tops, chosen, meaning, contents_by, keys_of, live_blocks}
use Rattle.spec.specs.Opening.{Opening, Refused, Accepted, opening}
use Rattle.spec.specs.Plans.{Olds, Task, Staging, Committing, Cleaning, Plan, Refuse, Begin}
use Rattle.spec.specs.Machine.{Call, Step, State, Closed, Rest, Busy, Formatting}
use Rattle.spec.specs.Reports.{number, numbers_of, words_after, medium_after, as_report}
use Rattle.spec.specs.Plans.{plan_clean, chosen_chunk, look_up}
use Rattle.spec.specs.Machine.{answer, next, barred, refusals, steps_left}
use Rattle.spec.specs.Book.{Item, Book}
use Rattle.spec.specs.History.{shows}
use Rattle.spec.specs.declared.Role.{Role}
use Rattle.spec.specs.declared.Role.TheVariants as L
use Rattle.spec.specs.declared.Report.{Report}
use Rattle.spec.specs.declared.Report.TheVariants as R

abbrev pub mix : ℕ → ℕ → ℕ
mix s x = (1099511628211 * s + x + 1) % 18446744073709551616

abbrev pub sum_of : ℕ → List ℕ → ℕ
sum_of s [] = s
sum_of s (x ∷ xs) = sum_of (mix s x) xs

abbrev pub same : List ℕ → List ℕ → Bool
same [] [] = true
same [] (y ∷ ys) = false
same (x ∷ xs) [] = false
same (x ∷ xs) (y ∷ ys) = both (eqb x y) (same xs ys)

abbrev pub each : (ℕ → List ℕ) → List ℕ → List ℕ
each f [] = []
each f (x ∷ xs) = f x ++ each f xs

abbrev pub bit : Bool → ℕ
bit true = 1
bit false = 0

-- n zeros before a list; the bytes of a value, byte i being (f + i) modulo 256
abbrev pub zeros : ℕ → List ℕ → List ℕ
zeros n rest = replicate n 0 ++ rest

abbrev pub pattern : ℕ → ℕ → List ℕ
pattern f zero = []
pattern f (suc n) = f % 256 ∷ pattern (suc f) n

abbrev pub action_sum : ℕ → List Action → ℕ
action_sum s [] = s
action_sum s (Store w v ∷ rest) = action_sum (mix (mix (mix s 1) w) v) rest
action_sum s (Flush l ∷ rest) = action_sum (mix (mix s 2) l) rest
action_sum s (Fence ∷ rest) = action_sum (mix s 3) rest

abbrev pub actions_code : List Action → List ℕ
actions_code acts = length acts ∷ action_sum 0 acts ∷ []

abbrev pub entry_code : Entry → List ℕ
entry_code e = e.op ∷ e.placement ∷ e.version ∷ e.field ∷ e.key ∷ e.at ∷ length (e.value) ∷ e.value

abbrev pub entry_sum : ℕ → List Entry → ℕ
entry_sum s [] = s
entry_sum s (e ∷ es) = entry_sum (sum_of s (entry_code e)) es

abbrev pub entries_code : List Entry → List ℕ
entries_code es = length es ∷ entry_sum 0 es ∷ []

abbrev pub parsed_code : Parsed → List ℕ
parsed_code Wrong = 0 ∷ []
parsed_code (Entries es) = 1 ∷ entries_code es

abbrev pub role_code : Role → List ℕ
role_code L.Free = 0 ∷ 0 ∷ []
role_code (L.Log n) = 1 ∷ n ∷ []
role_code (L.Data s) = 2 ∷ s ∷ []
role_code L.Wrong = 3 ∷ 0 ∷ []

abbrev pub opening_code : Opening → List ℕ
opening_code (Refused n) = 0 ∷ number n ∷ []
opening_code (Accepted es) = 1 ∷ entries_code es

abbrev pub held_code : Held → List ℕ
held_code Absent = 0 ∷ []
held_code (Value bytes) = 1 ∷ length bytes ∷ sum_of 0 bytes ∷ []

abbrev pub shown_code : Option Held → List ℕ
shown_code none = 2 ∷ []
shown_code (some h) = held_code h

abbrev pub report_tag : Report → ℕ
report_tag (R.Refused n) = 0
report_tag (R.Begun a) = 1
report_tag (R.Store w v) = 2
report_tag (R.Flush l) = 3
report_tag R.Fence = 4
report_tag (R.End n) = 5
report_tag R.Idle = 6
report_tag R.Opened = 7
report_tag R.Abandoned = 8
report_tag (R.Chosen c) = 9
report_tag (R.Part a n v) = 10

abbrev pub report_code : Report → List ℕ
report_code r = report_tag r ∷ numbers_of r

abbrev pub olds_sum : Olds → ℕ
olds_sum [] = 0
olds_sum ((c, w) ∷ olds) = mix (mix 0 c) w + olds_sum olds

abbrev pub task_code : Task → List ℕ
task_code Staging = 1 ∷ 0 ∷ []
task_code (Committing olds) = 2 ∷ olds_sum olds ∷ []
task_code (Cleaning n olds) = (3 + n) ∷ olds_sum olds ∷ []

abbrev pub state_code : State → List ℕ
state_code Closed = 0 ∷ []
state_code (Rest p b t items) = 1 ∷ p ∷ b ∷ t ∷ entries_code items
state_code (Busy p b t items task rest) = 2 ∷ p ∷ b ∷ t ∷ (task_code task ++ (entries_code items ++ actions_code rest))
state_code (Formatting o b t rest) = 3 ∷ b ∷ t ∷ bit o ∷ actions_code rest

abbrev pub plan_code : Plan → List ℕ
plan_code (Refuse n) = 0 ∷ number n ∷ []
plan_code (Begin items task acts) = 1 ∷ (task_code task ++ (entries_code items ++ actions_code acts))

abbrev pub chunk_code : Option ℕ → List ℕ
chunk_code none = 0 ∷ 0 ∷ []
chunk_code (some c) = 1 ∷ c ∷ []

abbrev pub place_code : Option Entry → List ℕ
place_code none = 0 ∷ 0 ∷ []
place_code (some e) = 1 ∷ e.at ∷ []

-- of each key: its highest version, its top entries, the chosen one's place, what it holds, and look-up's report
abbrev pub key_codes : List ℕ → List ℕ → List Entry → List ℕ
key_codes keys ws es =
    each (λ k. highest k es ∷ length (tops k es) ∷ (place_code (chosen k es) ++ (held_code (contents_by (meaning ws) es k) ++ report_code (look_up ws es k)))) keys

-- of an image of n chunks of 2^p bytes: the keys, the live blocks, the free chunks, the chunk to clean
abbrev pub whole_code : ℕ → ℕ → List ℕ → List Entry → List ℕ
whole_code p n ws es =
    length (keys_of es) ∷ sum (keys_of es) ∷ sum_of 0 (live_blocks es) ∷ sum_of 0 (free_chunks p n ws) ∷ chunk_code (chosen_chunk p n ws es)

abbrev pub clean_codes : ℕ → ℕ → List ℕ → List Entry → List ℕ → List ℕ
clean_codes p n ws es cs = each (λ c. plan_code (plan_clean p n ws es [] c)) cs

-- a header: whether it is right for so many bytes, the power and the count that it says
abbrev pub header_by : ℕ → ℕ → List ℕ → List ℕ
header_by p bytes ws = pick (both (size_allowed p bytes) (header_right (chunks_in p bytes) ws)) (1 ∷ p ∷ chunks_in p bytes ∷ []) (0 ∷ [])

abbrev pub header_code : ℕ → List ℕ → List ℕ
header_code bytes ws = header_by (header_power ws) bytes ws

-- a call: its report, whether a refusal is one of the call's, what bars it, the state that it leaves, the steps left then
abbrev pub refusal_code : Call → Report → ℕ
refusal_code k (R.Refused n) = bit (is_in (number n) (map number (refusals k)))
refusal_code k (R.Begun a) = 2
refusal_code k (R.Store w v) = 2
refusal_code k (R.Flush l) = 2
refusal_code k R.Fence = 2
refusal_code k (R.End n) = 2
refusal_code k R.Idle = 2
refusal_code k R.Opened = 2
refusal_code k R.Abandoned = 2
refusal_code k (R.Chosen c) = 2
refusal_code k (R.Part a n v) = 2

abbrev pub barred_code : Option Report → List ℕ
barred_code none = 0 ∷ []
barred_code (some r) = 1 ∷ report_code r

abbrev pub call_code : Call → State → ℕ → ℕ → Report → State → List ℕ
call_code k σ bytes table r σ' =
    report_code r ++ (refusal_code k r ∷ (barred_code (barred k σ bytes table) ++ (state_code σ' ++ (steps_left σ' ∷ []))))

abbrev pub call : Call → State → List ℕ → ℕ → ℕ → List ℕ
call k σ ws bytes table = call_code k σ bytes table (answer k σ ws bytes table) (next k σ ws bytes table)

-- A history: calls, runs of steps, other lengths lent, and the sum of the image's words.
pub data Command : Type 0 where
  Do : Call → Command
  Steps : ℕ → Command
  Lend : ℕ → ℕ → Command
  Total : Command

-- the words lent: the image's, cut or filled with 0 to the length lent
abbrev pub lent_by : Bool → ℕ → List ℕ → List ℕ
lent_by true n ws = ws
lent_by false n ws = take n (ws ++ replicate n 0)

abbrev pub lent : ℕ → List ℕ → List ℕ
lent bytes ws = lent_by (eqb (bytes / 8) (length ws)) (bytes / 8) ws

abbrev pub steps : ℕ → Report → ℕ → State → List ℕ → ℕ → ℕ → (State → List ℕ → List ℕ) → List ℕ
steps zero r s σ ws b t rest = s ∷ (report_code r ++ (state_code σ ++ rest σ ws))
steps (suc n) r s σ ws b t rest =
    let r' : Report = answer Step σ ws b t in
    steps n r' (sum_of s (report_code r')) (next Step σ ws b t) (words_after r' ws) b t rest

abbrev pub did : Call → State → ℕ → ℕ → Report → State → (Report → State → List ℕ) → List ℕ
did k σ b t r σ' rest = call_code k σ b t r σ' ++ rest r σ'

abbrev pub play : List Command → State → List ℕ → ℕ → ℕ → List ℕ
play [] σ ws b t = []
play (Do k ∷ cs) σ ws b t =
    did k σ b t (answer k σ (lent b ws) b t) (next k σ (lent b ws) b t) (λ r σ'. play cs σ' (words_after r ws) b t)
play (Steps n ∷ cs) σ ws b t = steps n R.Idle 0 σ ws b t (λ σ' ws'. play cs σ' ws' b t)
play (Lend b' t' ∷ cs) σ ws b t = play cs σ ws b' t'
play (Total ∷ cs) σ ws b t = sum_of 0 ws ∷ play cs σ ws b t

-- The medium: every word's possible values; the same by reports; what is read and what a cut leaves.
abbrev pub medium_code : Medium → List ℕ
medium_code [] = []
medium_code (c ∷ cs) = length (values c) ∷ (values c ++ medium_code cs)

abbrev pub by_reports : List Action → Medium → Medium
by_reports [] m = m
by_reports (a ∷ rest) m = by_reports rest (medium_after (as_report a) m)

abbrev pub picked : List ℕ → ℕ → ℕ
picked picks i = get_or picks (i % length picks) 0

abbrev pub media_code : List ℕ → List Action → List ℕ → List ℕ
media_code ws acts picks =
    medium_code (run acts (settled_at ws)) ++ (sum_of 0 (medium_code (by_reports acts (settled_at ws))) ∷ (latest (run acts (settled_at ws)) ++ cut (picked picks) (run acts (settled_at ws))))

-- an image cut after some actions: the values of some words, what is read, the image that the cut leaves, its opening
abbrev pub opened_code : List ℕ → ℕ → ℕ → List ℕ
opened_code ws bytes table = sum_of 0 ws ∷ opening_code (opening bytes ws table)

abbrev pub cut_code : List ℕ → List ℕ → ℕ → ℕ → Medium → List ℕ
cut_code at picks bytes table m =
    each (λ i. length (values (cell_at m i)) ∷ values (cell_at m i)) at ++ (sum_of 0 (latest m) ∷ opened_code (cut (picked picks) m) bytes table)

-- The desk book.
abbrev pub item : ℕ → Held → Item
item k h = record { key = k; gets = h }

abbrev pub items_code : List Item → List ℕ
items_code [] = 99 ∷ []
items_code (i ∷ is) = i.key ∷ (held_code (i.gets) ++ items_code is)

abbrev pub flight_code : Option (List Item) → List ℕ
flight_code none = 0 ∷ []
flight_code (some is) = 1 ∷ items_code is

abbrev pub book_code : List ℕ → Book → List ℕ
book_code keys b = each (λ k. held_code (b.register k)) keys ++ (items_code (b.staged) ++ flight_code (b.in-flight))
'''

# the names that facts use, by module; the definitions that are `unfoldable` are added to them
SPEC_NAMES = {
    'Basics': ['up_from'],
    'Words': ['packed', 'bytes_of', 'value_bytes'],
    'Medium': ['Action', 'Store', 'Flush', 'Fence', 'run', 'settled_at'],
    'Directory': ['log_word', 'data_word'],
    'Log': ['Entry', 'entries_of', 'head_of'],
    'Contents': ['Held', 'Absent', 'Value', 'entries_in'],
    'Plans': ['Task', 'Staging', 'Committing', 'Cleaning', 'entry'],
    'Machine': ['Call', 'Format', 'Open', 'Put', 'Delete', 'Commit', 'Abandon', 'LookUp', 'Choose', 'Clean', 'Step', 'State', 'Closed', 'Rest', 'Busy', 'Formatting'],
    'Book': ['new_book', 'nothing', 'done_items', 'note', 'note_cut', 'note_open'],
    'History': ['shows'],
}

USES = '''use Rattle.std.specs.Prelude.{Bool, true, false, List, [], ◌∷◌, ◌++◌, map, ℕ, zero, suc, ◌+◌, ◌*◌, ◌/◌, ◌%◌, T, eqb, length, get_or, set, take}
use Rattle.std.proofs.Math.Option.{Option, none, some}
use Rattle.codes.specs.Codes.{same, sum_of, each, bit, zeros, pattern, actions_code, parsed_code, role_code, opening_code, held_code, shown_code, key_codes, whole_code, header_code}
use Rattle.codes.specs.Codes.{clean_codes, call, Command, Do, Steps, Lend, Total, play, media_code, cut_code, item, book_code}
use Rattle.std.specs.declared.option.Option.TheVariants as G
use Rattle.spec.specs.declared.Refusal.TheVariants as N
use Rattle.spec.specs.declared.Report.TheVariants as R
'''

REFUSALS = ['ImageLength', 'NotOpen', 'DirectoryWrong', 'EntryWrong', 'BlockWrong', 'TopsDisagree', 'TableFull', 'Unfinished',
            'TooLong', 'BatchFull', 'KeyAbsent', 'VersionSpent', 'NoSpace', 'NothingStaged', 'BatchStaged', 'NotCleanable', 'OtherVersion']

REPORTS = ['refused', 'begun', 'store', 'flush', 'fence', 'end', 'idle', 'opened', 'abandoned', 'chosen', 'part']


class Fact:
    """A list of numbers in antt, and what the model has for it, in parts (name, numbers); `shorter(n)` is the text and the first n parts."""
    note = ''

    def __init__(self, name, text, parts, shorter=None):
        self.name, self.text, self.parts, self.shorter = name, text, parts, shorter
        self.code = [x for _, code in parts for x in code]


seen = {}                       # refusal number -> the calls that the model refused with it


def refused(number, call):
    seen.setdefault(number, set()).add(call)


# ---- codes

def sum_of(xs, s=0):
    for x in xs:
        s = (1099511628211 * s + x + 1) % WORD
    return s


def actions_code(acts):
    tags = {'store': 1, 'flush': 2, 'fence': 3}
    return [len(acts), sum_of(x for a in acts for x in [tags[a[0]], *a[1:]])]


def entries_code(entries):
    """Of entries (op, placement, version, field, key, value's words, at)."""
    return [len(entries), sum_of(x for op, pl, v, field, key, value, at in entries for x in [op, pl, v, field, key, at, len(value), *value])]


def of_entry(view, e):
    return e.op, e.block, e.version, e.tail, e.key, view.entry_words(e)[2:], e.chunk * view.geo.words + e.offset


def of_item(i):
    ws = i.words()
    return i.op, int(i.pointer is not None), i.version, ws[0] >> 24, i.key, ws[2:], 0


def olds_of(begun, memory):
    """The directory words that a begun call stores to, with the words of memory now: of each the chunk, and the word
    before the call."""
    before, stores = begun.before.words, [a[1] for a in begun.actions if a[0] == 'store']
    return [(w - 8, before[w]) for w in range(9, 512) if w in stores or memory[w] != before[w]]


def task_code(begun, memory):
    if begun.kind == 'stage':
        return [1, 0]
    return [2 if begun.kind == 'commit' else 3 + begun.result, sum(sum_of(old) for old in olds_of(begun, memory))]


def held_code(value):
    return [0] if value is None else [1, len(value), sum_of(value)]


def report_code(r):
    return [REPORTS.index(r[0]), *r[1:]] + ([0] if r == ('end',) else [])


def opening_code(words, nbytes, table):
    try:
        v = View(words, nbytes, table)
    except Refused as r:
        refused(r.number, 'open')
        return [0, r.number]
    return [1] + entries_code([of_entry(v, e) for e in v.entries])


# ---- antt text

def listed(xs):
    return '(' + ' ∷ '.join([str(x) for x in xs] + ['[]']) + ')'


def words_text(ws):
    """A list of words, with its runs of zeros written short."""
    out, i, closing = [], 0, 0
    while i < len(ws):
        n = next((j for j in range(i, len(ws)) if ws[j]), len(ws)) - i
        if n >= 4:
            out.append(f'zeros {n} (')
            closing += 1
        else:
            n = 1
            out.append(f'{ws[i]} ∷ ')
        i += n
    return '(' + ''.join(out) + '[]' + ')' * closing + ')'


def poked_text(pokes):
    text = 'words'
    for w, v in pokes:
        text = f'(set {text} {w} {v})'
    return text


def actions_text(acts):
    name = {'store': 'Store {} {}', 'flush': 'Flush {}', 'fence': 'Fence'}
    return listed(name[a[0]].format(*a[1:]) for a in acts)


def items_text(items):
    return listed(f'entry {op} {pl} {v} {field} {key} {listed(value)}' for op, pl, v, field, key, value, _ in map(of_item, items))


def given_text(x):
    return 'G.None' if x is None else f'(G.Some {x})'


def report_text(r):
    if r[0] == 'refused':
        return f'(R.Refused N.{REFUSALS[r[1] - 1]})'
    return '(' + ' '.join(['R.' + r[0].capitalize()] + [str(x) for x in r[1:]]) + ')'


def named_in(c):
    """The version that a put (key, first byte, length) or a delete (key) is for, behind its other numbers; None where it names none."""
    own = {'put': 4, 'delete': 2}[c[0]]
    return c[own] if len(c) > own else None


def power_in(c):
    """The power that a formatting (station, centre) is told, behind these; 12 where none stands."""
    return c[3] if len(c) > 3 else 12


def call_text(c):
    if c[0] == 'format':
        return f'(Format {power_in(c)} {given_text(c[1])} {given_text(c[2])})'
    if c[0] == 'put':
        return f'(Put {given_text(named_in(c))} {c[1]} (pattern {c[2]} {c[3]}))'
    if c[0] == 'delete':
        return f'(Delete {given_text(named_in(c))} {c[1]})'
    name = 'LookUp' if c[0] == 'look' else c[0].capitalize()
    return '(' + ' '.join([name] + [str(x) for x in c[1:]]) + ')'
