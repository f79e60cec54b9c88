"""What is told at a terminal of a script that is refused, beside its line: what was found, and what is mostly meant (docs/FORMATS.md,
"Standard error"). What is wanted was worked out by hand. compare/runs/statuses.py compares."""

# What stands in front of each text below, and places in these, marked by `^`: what is told there of the token, by the grammar of
# docs/LANGUAGE.md. Nothing is told where four kinds of tokens or more can stand.
HEADER = 'mpd 1; ranks 2; var x; var a[2]; req r; '
ENDS = 'the end of the text'
FOUND = (
    ('print 1 ^print 2;', "'print'; only ';' or an operator can stand here"),
    ('print 1 # the end^', f"{ENDS}; only ';' or an operator can stand here"),
    ('print (1 ^;', "';'; only ')' or an operator can stand here"),
    ('print 1 < 2 ^< 3;', "'<'; only ';' or an operator that is no comparison can stand here"),
    ('print 1 == 2 + 3 ^>= 3;', "'>='; only ';' or an operator that is no comparison can stand here"),
    ('print 1 < 2 && 3 ^5;', "'5'; only ';' or an operator can stand here"),
    ('print 1 ^= 1;', "'='; only ';' or an operator can stand here"),
    ('print ^;', "';'"), ('print 1 + ^* 2;', "'*'"), ('print ^any;', "'any'"),
    ('print a^;', "';'; only '[' can stand here"), ('print a[0 ^;', "';'; only ']' or an operator can stand here"),
    ('x^++;', "'+'; only '=' can stand here"), ('x ^+= 1;', "'+'; only '=' can stand here"), ('x ^== 1;', "'=='; only '=' can stand here"),
    ('x ^&& 1;', "'&&'; only '=' can stand here"), ('x ^!= 1;', "'!='; only '=' can stand here"), ('x ^! 1;', "'!'; only '=' can stand here"),
    ('x^[0] = 1;', "'['; only '=' can stand here"), ('a ^= 1;', "'='; only '[' can stand here"),
    ('if 1 ^print 2;', "'print'; only '{' or an operator can stand here"), ('if 1 { } else ^if 2 { }', "'if'; only '{' can stand here"),
    ('while x ^do { }', "'do'; only '{' or an operator can stand here"),
    ('while 1 { print 1; ^', ENDS), ('^}', "'}'"), ('print 1; ^else { }', "'else'"), ('print 1; ^var y;', "'var'"), ('^12;', "'12'"),
    ('send 1 ^0 tag 1;', "'0'; only 'to' or an operator can stand here"), ('send 1 to 0 ^;', "';'; only 'tag' or an operator can stand here"),
    ('send 1 to ^any tag 0;', "'any'"), ('isend ^1 to 0 tag 0;', "'1'; only a name can stand here"),
    ('recv ^;', "';'; only a name can stand here"), ('recv x ^to 0 tag 0;', "'to'; only 'from' can stand here"),
    ('recv x from any ^+ 1 tag 0;', "'+'; only 'tag' can stand here"),
    ('recv x from 0 ^;', "';'; only 'tag' or an operator can stand here"),
    ('recv x from 0 tag any ^print x;', "'print'; only 'status' or ';' can stand here"),
    ('recv x from 0 tag 0 ^print x;', "'print'; only 'status', ';' or an operator can stand here"),
    ('recv x from 0 tag 0 status x ^;', "';'; only a name can stand here"), ('recv x from 0 tag 0 status x x ^x;', "'x'; only ';' can stand here"),
    ('wait ^5;', "'5'; only a name can stand here"), ('barrier ^x;', "'x'; only ';' can stand here"), ('barrier^', f"{ENDS}; only ';' can stand here"),
    # a token is shown up to 72 bytes of it
    (f'print 1 ^{"0" * 72};', f"""'{"0" * 72}'; only ';' or an operator can stand here"""),
    (f'print 1 ^{"0" * 73};', f"""'{"0" * 72}...'; only ';' or an operator can stand here"""),
    (f'barrier ^{"y" * 64}', f"""'{"y" * 64}'; only ';' can stand here"""))
# The same of what a script begins with.
FOUND_FIRST = (
    ('mpd^', f'{ENDS}; only a number can stand here'), ('mpd ^x;', "'x'; only a number can stand here"),
    ('mpd 1^', f"{ENDS}; only ';' can stand here"), ('mpd 1; ^var x;', "'var'; only 'ranks' can stand here"),
    ('mpd 1; ranks ^two;', "'two'; only a number can stand here"), ('mpd 1; ranks 2 ^var x;', "'var'; only ';' can stand here"),
    ('mpd 1; ranks 2; var ^;', "';'; only a name can stand here"), ('mpd 1; ranks 2; req ^1;', "'1'; only a name can stand here"),
    ('mpd 1; ranks 2; var y^', f"{ENDS}; only ';' or '[' can stand here"), ('mpd 1; ranks 2; var y[^];', "']'; only a number can stand here"),
    ('mpd 1; ranks 2; var y[3^;', "';'; only ']' can stand here"), ('mpd 1; ranks 2; var y[3] ^x;', "'x'; only ';' can stand here"))
# A text of as many bytes as a script may have: one token more would make it too long, so none is told.
FOUND_LONG = ((HEADER + 'print 1' + ' ' * 65536)[:65536] + '^', ENDS)


# What is mostly meant, in a line more: of a word of another language, of a word of this one where only a name can stand, and of a block that
# isn't closed. A fault without one has None.
UNKNOWN, EXPECTED, BAD_TOKEN, BAD_RANKS, NOT_IN_VERSION = '5 unknown-name', '4 expected', '3 bad-token', '9 bad-ranks', '10 not-in-version'
OPEN = "the block that line %d opens isn't closed"
LATE, LONE, ONE_NAME = 'declarations stand before the first statement', "'else' follows the '}' of an if", "a declaration has one name: write 'var x; var y;'"
# Of texts above, by what they end with, what is told more.
FOUND_MEANT = {'{ print 1; ^': OPEN % 1, '^else { }': LONE, '^var y;': LATE}
MEANT = (
    ('^for (i = 0; i < 4; i++) { }', UNKNOWN, "'for' is no word here: write 'while TEST { .. }'"),
    ('^break;', UNKNOWN, "'break' is no word here: a loop ends by its test"),
    ('^return 0;', UNKNOWN, "'return' is no word here: a rank ends after its last statement"), ('^fort = 1;', UNKNOWN, None),
    ('^MPI_Send(&x, 1);', UNKNOWN, "'MPI_Send' is no word here: write 'send VALUE to RANK tag TAG;'"),
    ('recv x from ^MPI_ANY_SOURCE tag 1;', UNKNOWN, "'MPI_ANY_SOURCE' is no word here: write 'any'"),
    ('^int y;', UNKNOWN, "'int' is no word here: a variable is declared by 'var NAME;'"),
    ('isend ^send 1 to 0 tag 0;', EXPECTED, "'send' is a word of the language, so no name"),
    ('recv ^rank from 0 tag 0;', EXPECTED, "'rank' is a word of the language, so no name"),
    ('print ^tag;', EXPECTED, None), ('^else { }', EXPECTED, LONE), ('barrier^', EXPECTED, None), ('print ^else;', EXPECTED, None), ('print ^var;', EXPECTED, None),
    ('if x { } else { } ^else { }', EXPECTED, LONE), ('if x {\n x = 0;\n^else {\n x = 1;\n}', EXPECTED, f"'else' follows a '}}': {OPEN % 1}"),
    ('if x {\n while x {\n x = 0;\n^else { }', EXPECTED, f"'else' follows a '}}': {OPEN % 2}"), ('x = 1; ^var y;', EXPECTED, LATE), ('if x { ^req q;', EXPECTED, LATE),
    ('var y^, z;', BAD_TOKEN, ONE_NAME), ('req y^, z;', BAD_TOKEN, ONE_NAME), ('print x^, 1;', BAD_TOKEN, None), ('x = 0; recv x^, 1;', BAD_TOKEN, None),
    ('var y^: 1;', BAD_TOKEN, None), ('^waitany r to x;', NOT_IN_VERSION, "'waitany' is a word of version 2: begin with 'mpd 2;'"),
    ('while 1 {\n if x {\n x = 0;\n} # }\n^', EXPECTED, OPEN % 1), ('while 1 {\n if x {\n x = 0; # {\n^', EXPECTED, OPEN % 2))


# The same of what a script begins with.
MEANT_FIRST = (
    ('mpd ^3;', NOT_IN_VERSION, 'there are the versions 1 and 2'), ('mpd 1; ranks ^20;', BAD_RANKS, 'a script has 1 to 16 ranks'),
    ('mpd 1; ranks 2^, 3;', BAD_TOKEN, None))
