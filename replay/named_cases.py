"""Runs of `inline_script` and `word_index` with what they must print and end with, by hand from the rules.

Each is named for what it shows: words, input, streams where they are not files, what is printed, and status.
"""


def ends(storage, length, text):
    """The last three lines of a run."""
    return b'text %b\nlength %d\nstorage %b\n' % (text, length, storage.encode())


BAD_WORDS = {
    'unknown_word': ['stack'], 'no_word': [], 'two_words': ['inline', 'inline'], 'empty_argument': [''],
    'argument_and_an_empty_one': ['inline8', ''], 'argument_in_capitals': ['INLINE'],
    'argument_of_another_capacity': ['inline30'], 'word_that_is_not_utf8': [b'\xff']}
NOT_UTF8 = {
    'byte_that_is_not_utf8': b'\xff', 'bad_byte_before_a_bad_line': b'?\n\xff\n',
    'surrogate_in_the_input': b'push \xed\xa0\x80\n', 'overlong_space_in_the_input': b'push\xc0\xa0a\n',
    'past_the_last_character_in_the_input': b'push \xf4\x90\x80\x80\n',
    'cut_character_after_a_line': b'pop\n\xc3', 'cut_character_in_the_last_byte': b'\n' * 65535 + b'\xc3'}
# By their names: the bad line's number, and the input.
BAD_LINES = {
    'second_line_is_bad': (2, b'pop\npush ab\n'), 'empty_line_is_counted': (2, b'\npop \n'),
    'first_of_two_bad_lines': (3, b'pop\n\n?\n!\n'), 'line_of_a_space': (1, b' \n'),
    'bad_line_in_the_last_byte': (65536, b'\n' * 65535 + b'?'),
    'carriage_return_after_a_word': (1, b'pop\r\n'),
    'byte_order_mark_before_a_word': (1, b'\xef\xbb\xbfpop\n'),
    'place_past_the_greatest': (1, b'truncate 18446744073709551616\n'),
    'place_of_twenty_one_digits': (1, b'truncate 000000000000000000000\n'),
    'place_with_a_sign': (1, b'truncate +1\n'), 'half_a_pair_of_digits': (2, b'pop\nreplace_bytes 6\n'),
    'digit_that_is_none': (1, b'replace_bytes 6g\n'), 'no_character_to_push': (1, b'push \n'),
    'letter_and_its_accent_pushed': (1, b'push e\xcc\x81\n'), 'push_without_a_space': (1, b'push_str\n'),
    'insertion_without_its_second_space': (1, b'insert 0\n'), 'pop_with_a_space': (1, b'pop \n'),
    'insertion_with_two_spaces': (1, b'insert  0 a\n'), 'clear_with_a_space': (1, b'clear \n'),
    'word_in_capitals': (1, b'POP\n'), 'word_with_a_tab': (1, b'push\ta\n')}
# By their names: the input, and what an inline text answers, with its storage, length and text at the end.
RUNS = {
    'no_line': (b'', b'', 'inline', 0, b''),
    'last_line_without_its_end': (b'push_str a\n\npop', b'done\nchar a\n', 'inline', 0, b''),
    'insertion_inside_a_text': (b'push_str foo\ninsert_str 2 bar\nreplace_bytes 61\npop\n',
                                b'done\ndone\nwrong length\nchar o\n', 'inline', 5, b'fobar'),
    'longest_input': (b'\n' * 65536, b'', 'inline', 0, b''),
    'longest_line': (b'push_str ' + b'a' * 65527, b'done\n', 'heap', 65527, b'a' * 65527),
    'most_commands': (b'pop\n' * 16384, b'none\n' * 16384, 'inline', 0, b''),
    'carriage_return_belongs_to_its_line': (b'push_str a\r\npop\n', b'done\nchar \r\n', 'inline', 1, b'a'),
    'byte_order_mark_is_pushed': (b'push \xef\xbb\xbf\ninsert 0 \xef\xbb\xbf\n', b'done\ndone\n',
                                  'inline', 6, b'\xef\xbb\xbf\xef\xbb\xbf'),
    'greatest_place': (b'truncate 18446744073709551615\n', b'bad place\n', 'inline', 0, b''),
    'place_of_twenty_digits': (b'truncate 00000000000000000000\n', b'done\n', 'inline', 0, b''),
    'digits_of_either_case': (b'push_str abcd\nreplace_bytes 6a6A4b4B\n', b'done\ndone\n',
                              'inline', 4, b'jjKK'),
    'length_is_tested_before_utf8': (b'push a\nreplace_bytes ffff\nreplace_bytes ff\n',
                                     b'done\nwrong length\nnot utf-8\n', 'inline', 1, b'a'),
    'bytes_across_characters': ('push_str a€\nreplace_bytes f09d849e\ntruncate 1\npop\n'.encode(),
                                'done\ndone\nbad place\nchar 𝄞\n'.encode(), 'inline', 0, b''),
    'space_is_pushed': (b'push  \n', b'done\n', 'inline', 1, b' '),
    'empty_text_is_pushed': (b'push_str \n', b'done\n', 'inline', 0, b''),
    'empty_text_is_put_in_at_no_place': (b'insert_str 1 \n', b'bad place\n', 'inline', 0, b'')}
SEVERAL = b'push_str hello world\ntruncate 5\npop\ntruncate 9\npush_str abcdefghijklmnopqrstuvwxyz0\npop\n'
THEIR_OUTPUT = (b'done\ndone\nchar o\nbad place\ndone\nchar 0\n'
                + ends('heap', 30, b'hellabcdefghijklmnopqrstuvwxyz'))
CASES = (
    *((name, words, b'pop\n', '', b'bad argument\n', 2) for name, words in BAD_WORDS.items()),
    *((name, ['inline'], bytes_of, '', b'input is not utf-8\n', 2) for name, bytes_of in NOT_UTF8.items()),
    *((name, ['inline'], given, '', b'line %d: bad command\n' % at, 2)
      for name, (at, given) in BAD_LINES.items()),
    *((name, ['inline'], given, '', replies + ends(*end), 0)
      for name, (given, replies, *end) in RUNS.items()),
    ('place_inside_a_character', ['string'], 'push é\ninsert 1 x\nremove 0\npop\n'.encode(), '',
     'done\nbad place\nchar é\nnone\n'.encode() + ends('heap', 0, b''), 0),
    ('shrunk_text_stays_inline', ['heap'], b'push_str he\nshrink_to_fit\nreserve 28\n', '',
     b'done\ndone\ndone\n' + ends('inline', 2, b'he'), 0),
    ('commands_are_answered_in_order', ['inline'], SEVERAL, '', THEIR_OUTPUT, 0),
    ('input_comes_in_parts', ['inline'], SEVERAL, 'stdin-pipe', THEIR_OUTPUT, 0),
    ('parts_for_a_heap_text', ['heap'],
     'push_str aé€𝄞\nshrink_to_fit\nremove 3\nreplace_bytes 6162636465666a\n'.encode(),
     'stdin-pipe', 'done\ndone\nchar €\ndone\n'.encode() + ends('inline', 7, b'abcdefj'), 0),
    ('eight_inline_starts_inline', ['inline8'], b'', '', ends('inline', 0, b''), 0),
    ('none_inline_starts_inline', ['inline0'], b'', '', ends('inline', 0, b''), 0),
    ('ninth_byte_moves_to_the_heap', ['inline8'], b'push_str 12345678\npush 9\n', '',
     b'done\ndone\n' + ends('heap', 9, b'123456789'), 0),
    ('too_long_of_empty_lines', ['inline'], b'\n' * 65537, '', b'input too long\n', 2),
    ('too_long_of_one_line', ['inline'], b'a' * 65537, '', b'input too long\n', 2),
    ('too_long_and_not_utf8', ['inline'], b'\xff' * 65537, '', b'input too long\n', 2),
    ('character_across_the_limit', ['heap'], b'\n' * 65535 + 'é'.encode(), '', b'input too long\n', 2),
    ('input_without_an_end', ['inline'], b'', 'stdin-zero', b'input too long\n', 2),
    ('failed_read', ['inline'], b'', 'stdin-dir', b'read fault\n', 1),
    ('unknown_word_before_a_failed_read', ['stack'], b'', 'stdin-dir', b'bad argument\n', 2),
    ('no_word_before_a_failed_read', [], b'', 'stdin-dir', b'bad argument\n', 2),
    ('two_words_before_a_failed_read', ['inline', 'inline'], b'', 'stdin-dir', b'bad argument\n', 2),
    ('failed_write', ['inline'], b'pop\n', 'stdout-full', b'', 1),
    ('nobody_reads_the_output', ['inline'], b'pop\n', 'stdout-closed', b'', 1),
    ('failed_write_of_no_line', ['inline0'], b'', 'stdout-full', b'', 1),
    ('nobody_reads_a_long_text', ['heap'], b'push_str ' + b'a' * 65527, 'stdout-closed', b'', 1),
    ('line_of_a_fault_is_lost', ['inline'], b'?\n', 'stdout-full', b'', 2),
    ('line_of_a_long_input_is_lost', ['inline8'], b'\n' * 65537, 'stdout-closed', b'', 2))
WORDS = (
    *((f'bad_arguments_{words}', words, b'a', '', b'word_index: usage: word_index [--top N] < TEXT\n', 2)
      for words in (['--top'], ['3'], ['--top', '-1'], ['--top', ''], ['--top', '3', '3'], ['--most', '3'], [b'\xff'])),
    ('all_words', [], b' b c\n\nb  a\n', '', b'      2       1 b\n      1       3 a\n      1       1 c\n', 0),
    ('no_word_of_them', ['--top', '0'], b'a', '', b'', 0),
    ('input_that_is_not_utf8', [], b'a\nb \xff\n', '', b'word_index: the input is not UTF-8\n', 2),
    ('failed_read_of_words', [], b'', 'stdin-dir', b'word_index: the input cannot be read\n', 2),
    ('failed_write_of_words', [], b'a', 'stdout-full', b'word_index: the output cannot be written\n', 2),
    ('long_words_and_progress', ['--top', '1'], b'a\n' * 100_000 + b'l' * 100_000, '',
     b'word_index: 100000 lines\n %d       1 a\n' % 100_000, 0),
    ('thousand_of_more_words', ['--top', '1000'], b''.join(b'w%04d\n' % at for at in range(1200)), '',
     b''.join(b'      1 %7d w%04d\n' % (at + 1, at) for at in range(1000)), 0),
    ('lines_past_a_million', [], b'\n' * 69_999 + b'b\n' + b'\n' * 930_000 + b'a\n', '',
     b''.join(b'word_index: %d00000 lines\n' % at for at in range(1, 11))
     + b'      1 1000001 a\n      1   70000 b\n', 0))
