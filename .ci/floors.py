"""How much the gate must try at least: a part that has tried less has shown nothing, and fails.

A number is raised when something is added. It is lowered only in the commit that takes away what it
counts, with the reason.
"""

# Rows of all files of `crates/inline_vectors/data/`: just as many.
ROWS = 805

# Edits in `must-fail-together/` and in `must-fail/`, by crate: just as many.
MUST_FAIL = {'inlinable_string': 16}
EDITS = {'inlinable_string': 249, 'inline_uses': 188, 'script_language': 31, 'word_index': 4}

# By crate: the last request for memory of those that fail one after the other, and how often a test met one;
# of `inline_vectors` how many rows and scripts state requests, and how many of these were refused.
# And how many requests each test of a crate makes before the first that fails.
REFUSALS = {'inline_vectors': (174, 171), 'inline_uses_tests': (29, 50)}
PREPARED = {'inline_uses_tests': 24}

# Edits in `wrong-bodies/` and `wrong-bodies-proved/`, by crate: just as many.
WRONG_BODIES = {'inlinable_string': 28, 'inline_uses': 25}
WRONG_BODIES_PROVED = {'inline_uses': 5}


def each(names, words):
    """Every name with every word after it."""
    return [f'{name} {word}' for name in names.split() for word in words.split()]


# Questions whose answers have their digests in `replay/digests`: how many there are of each kind. And how many
# there must be at least of each type with a word, of each word with an answer or a move of the text, of each
# storage at the end, and of scripts with a status and the last word of their output.
BESIDE = {'calls': 40_000, 'script': 40_000}
OURS, SCRIPTS = 'InlinableString InlinableStringN<8>', 'inline inline0 inline8 heap'
GROWTHS = 'push push_str insert insert_str'
BESIDE_OF_EACH = dict.fromkeys((
    *each(f'InlineString {OURS} String', f'{GROWTHS} new from clone write write_str write_char pop remove '
          'truncate clear len capacity is_empty as_bytes as_str into_bytes eq eq_str hash display padded cut '
          'debug cmp partial_cmp replace_bytes from_utf8 from_str extend_chars extend_strs'),
    *each(f'{OURS} String', 'collect with_capacity from_utf8_unchecked from_utf8_lossy from_utf16 '
          'from_utf16_lossy extend reserve reserve_exact shrink_to_fit heap split_once'),
    *each(OURS, 'extend_char_refs into_string inline'),
    *each('InlineString', 'copy parse try_from try_from_char remaining_capacity is_full'),
    *each(f'InlineString {OURS}', 'default from_string from_chars from_strs from_strs_with repeat add retain '
          'retain_odd replace_range split_off drain trim_in_place trim_start_in_place trim_end_in_place '
          'make_ascii_uppercase make_ascii_lowercase'),
    *each('insert insert_str truncate remove replace_range split_off drain', 'bad_place'),
    *each('pop remove split_off drain split_once', 'value'), *each('pop split_once', 'none'),
    *each('eq eq_str is_full', 'true false'), *each('cmp partial_cmp', 'less equal greater'),
    *each(f'{GROWTHS} from_str parse try_from from_strs_with repeat add replace_range', 'full'),
    *each('write write_str write_char', 'write_fault'), *each('from eq from_utf8', 'too_long'),
    *each('reserve reserve_exact with_capacity repeat', 'no_memory'), *each('from_utf8', 'done not_UTF-8'),
    *each('replace_bytes', 'done wrong_length not_UTF-8'), 'remaining_capacity 0',
    *each('from_utf8_lossy', 'borrowed owned'), *each('from_utf16', 'done unpaired'), 'shrink_to_fit demotes',
    *each(f'{GROWTHS} write write_str write_char add extend extend_chars extend_char_refs extend_strs reserve '
          'reserve_exact replace_range from_strs_with repeat', 'promotes'),
    *each(f'{SCRIPTS} string', '0 2 command heap'), *each(SCRIPTS, 'inline')), 50)

# The cases of `replay/named_cases.py`, of `inline_script` and of `word_index`.
NAMED_CASES, WORD_CASES = 75, 15

# Hostile inputs: how many, and how many of them must be accepted and so run, and lead to each fault and to
# each reply. (No input brings about an allocation failure before a run.)
HOSTILE_INPUTS = 6_000
HOSTILE = {'accepted': 1_200, **dict.fromkeys((
    'bad argument', 'read fault', 'input too long', 'input is not utf-8', 'bad command', 'write fault',
    'done', 'char', 'none', 'bad place', 'not utf-8', 'wrong length', 'no memory'), 30)}

# Edits in `wrong-definitions/`, by crate: just as many.
WRONG_DEFINITIONS = {'inlinable_string': 166, 'inline_uses': 39, 'script_language': 87}

# Edits in `wrong-clauses/`, by crate: just as many. Public functions of `callers` that promise something.
# READMEs whose first program is proved and run: exactly this number.
WRONG_CLAUSES, CALLERS, PROGRAMS = {'inlinable_string': 10}, 124, 2

# Lemmas, answers to goals and definitions, and paths and names in backticks that the documents cite.
PROOFS, CITED = 1_300, 400

# Blocks of `unsafe`, each with its condition in ARCHITECTURE or in a test: just as many.
UNSAFE = {'library': 13, 'others': 3}

# For `gate quick`: functions of the library that are proved, and tests of `inline_tests` that must pass without
# being proved, and how many at most may say that they need the proved build.
QUICK_PROVED, QUICK_PASSED, QUICK_HELD = 14, 12, 5

# Workloads of the bench, and on how many of them each type of text is run.
BENCH_WORKLOADS = 82
BENCH_TEXTS = {
    'InlinableString': 74, 'String': 63,
    **{f'InlinableStringN<{capacity}>': 8 for capacity in (0, 8, 22, 30, 62)}}

# By program and job, a size at which `gate bench` times it, and then at four times that: long enough to be measured,
# and not so large that caches make most of the difference.
GROWTH = {'jobs symbols': 40_000, 'jobs paths': 30_000, 'jobs tree': 50_000, 'word_index': 30_000}
