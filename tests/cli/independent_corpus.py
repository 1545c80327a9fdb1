"""Documents and queries of everyday use, for `independent`: a query a line, by the document that it asks.

The documents are those of examples/, pages and sources of this repository, and some that are made, always the same ones. No query
captures an empty part between the bytes of one character: the engines beside it have no such place.
"""
import glob
import os
import random

ROOT = os.path.dirname(os.path.dirname(os.path.dirname(os.path.abspath(__file__))))
MOST = 6000  # bytes of a page or a source


def shipped(path, most=None):
    with open(os.path.join(ROOT, path), 'rb') as file:
        data = file.read()
    lines = data.splitlines(keepends=True)
    while most is not None and sum(map(len, lines)) > most:
        lines.pop()
    return b''.join(lines)


def shipped_sources():
    """The first sources of the program, whatever their names."""
    paths = sorted(glob.glob(os.path.join(ROOT, 'crates', '*', 'src', '*.rt')))
    return shipped(paths[0], MOST) + shipped(paths[1], MOST)


# --- Documents that are made -----------------------------------------------------------------------

def web_log(pick):
    paths = ['/', '/index.html', '/img/a.png', '/api/v1/users?id=%d', '/api/v2/orders?page=%d&size=20', '/login', '/static/app.%d.js']
    agents = ['curl/8.1.2', 'Mozilla/5.0 (X11; Linux x86_64)', '-', 'GoodBot/2.1 (+http://bot.example.org)']
    lines = []
    for k in range(45):
        path = pick.choice(paths)
        lines.append('%d.0.%d.%d - %s [12/Mar/2026:08:%02d:%02d +0000] "%s %s HTTP/1.1" %d %s "%s"' % (
            pick.choice([10, 192, 203]), pick.randrange(4), pick.randrange(256), pick.choice(['-', 'ada', 'grace']), k // 6, k % 60,
            pick.choice(['GET', 'GET', 'POST', 'HEAD']), path % pick.randrange(100) if '%' in path else path,
            pick.choice([200, 200, 200, 301, 404, 500]), pick.choice(['-', str(pick.randrange(100000))]), pick.choice(agents)))
    return '\n'.join(lines) + '\n'


def service_log(pick):
    said = ['started', 'took %d ms', 'retry %d of 3', 'cannot open "/var/lib/q.%d": no such file', 'user=ada id=%d ok', 'user=bob id=%d denied',
            'Traceback (most recent call last):', '  File "job.py", line %d, in run']
    lines = []
    for k in range(60):
        text = pick.choice(said)
        lines.append('2026-03-%02dT%02d:%02d:07.%03dZ %s [worker-%d] %s' % (
            1 + k // 20, k % 24, pick.randrange(60), pick.randrange(1000), pick.choice(['INFO', 'INFO', 'DEBUG', 'WARN', 'ERROR']), pick.randrange(4),
            text % pick.randrange(1000) if '%d' in text else text))
    return '\n'.join(lines) + '\n'


def records(pick):
    lines = ['id,name,mail,born,sum']
    for k in range(50):
        name = pick.choice(['Ada Byron', '"Hopper, Grace"', 'Alan T.', 'Émilie', ''])
        lines.append('%d,%s,%s,%d-%02d-%02d,%s' % (k, name, pick.choice(['ada@example.org', 'g.hopper@mail.example.com', 'none', '']),
                                                   pick.randrange(1800, 2000), pick.randint(1, 12), pick.randint(1, 28),
                                                   pick.choice(['12.50', '-3', '1e6', '0.07', 'n/a'])))
    return '\n'.join(lines) + '\n'


def scripts(pick):
    words = ['η θάλασσα ήταν ήσυχη', 'море было тихим', 'הים היה שקט', 'समुद्र शांत था', '海は静かだった', '大海很平静', 'البحر هادئ', 'la mer était calme',
             'das Meer war ruhig, „still“', 'morze było spokojne', 'ĉu la maro kvietas?', 'Ωμέγα και ΆΛΦΑ', 'Кофе Остыл', '１２ und 34', 'x²+y²', '5 € – 7 £']
    return '\n'.join('%s %s.' % (pick.choice(words), pick.choice(words)) for _ in range(40)) + '\n'


def sequences(pick):
    return ''.join('>seq%02d len=60\n%s\n' % (k, ''.join(pick.choice('ACGT') for _ in range(60))) for k in range(40))


def proteins(pick):
    return ''.join('>sp|P%05d|TEST\n%s\n' % (k, ''.join(pick.choice('ACDEFGHIKLMNPQRSTVWY') for _ in range(70))) for k in range(40))


def settings(pick):
    lines = []
    for k in range(40):
        lines.append(pick.choice(['[section.%d]' % k, '# a comment %d' % k, 'key_%d = value %d' % (k, k), 'path="/usr/lib/%d"' % k, 'on=true', '',
                                  'list = 1, 2,%d' % k, 'url: https://example.org:%d/a?b=c#d' % (8000 + k), "quoted = 'it''s %d'" % k]))
    return '\n'.join(lines) + '\n'


def made(maker):
    return maker(random.Random(maker.__name__)).encode()


# --- Queries ---------------------------------------------------------------------------------------

ASKED = {}  # by the name of a document: its bytes and its queries


def ask(name, data, text, *more):
    ASKED[name] = data, [line for line in text.strip().splitlines() if line.strip()] + list(more)


def words(*texts):
    """Each as a whole word, and each with the word behind it."""
    return [query % text for text in texts for query in (r'/[^\w]!w{%s}[^\w]/', r'/[^\w]%s !next{\w+}[^\w]/')]


ask('auth.log', shipped('examples/auth.log'), r'''
/Failed password for (invalid user |)!user{\w+} from !address{\d+\.\d+\.\d+\.\d+} port /
/Failed password for (invalid user )?!user{\w+} from !address{[\d.]+} port !port{\d+} /
/(Accepted !method{\w+}|Failed password) for (invalid user )?!user{\w+} from /
/\n!when{\w{3} +\d+ \d\d:\d\d:\d\d} gate !what{\w+}\[!id{\d+}\]: /
/\n!when{\w{3} +\d+ \d\d:\d\d:\d\d} gate CRON\[\d+\]: !rest{[^\n]*}\n/
/session !did{opened|closed} for user !user{\w+}\n/
/sshd\[!id{\d+}\]: Connection closed by !ip{[\d.]+} port !port{\d+} \[preauth\]\n/
/ from !ip{203\.0\.113\.\d{1,3}} /
/ port !port{[1-9]\d{3,4}} ssh2\n/
/!line{[A-Z][a-z]{2} +\d+ 0[0-5]:[^\n]*}\n/
/^!first{[^\n]*}\n/
/\n!last{[^\n]*}\n$/
/Accepted !method{password|publickey} for !user{[a-z]+} from !ip{\d+\.\d+\.\d+\.\d+} port !port{\d+} ssh2\n/
/invalid user !user{[^ ]+} from/
/\(!service{\w+}:session\)/
/user !root{root}\n/
/ !hour{\d\d}:!minute{\d\d}:!second{\d\d} /
/gate sshd\[(41!tail{\d\d})\]/
/(for|user) !name{a\w*}[^\w]/
/!pair{port \d+ (ssh2|\[preauth\])}\n/
let failed = /Failed password for (invalid user |)!user{\w+} from !address{[\d.]+} port /; let outside = /!address{203\.0\.113\.\d+} /; project user (failed join outside)
/Failed password for !user{\w+} from / minus /!user{root} /
/for !user{\w+} from/ union /for user !user{\w+}\n/
/user !user{\w+} from/ join /!user{\w*e\w*}[^\w]/
project ip (/from !ip{[\d.]+} port !port{\d+} ssh2/)
project none (/Accepted password/)
/ from !ip{[\d.]+} / minus / from !ip{192[\d.]+} / minus / from !ip{198[\d.]+} /
(/Accepted \w+ for !user{\w+} / union /Failed \w+ for !user{\w+} /) minus /!user{ada|grace} /
let a = /sshd\[!id{\d+}\]: Failed/; let b = /sshd\[!id{\d+}\]: Accepted/; a union b
/Failed password [^\n]* from !first{[\d.]+} port [^\n]*\n([^\n]*\n){0,2}[^\n]*Failed password [^\n]* from !second{[\d.]+} port/
''')

ask('auth.log, its beginning', shipped('examples/auth.log', 2500), r'''
/!failed{Failed password}(.|\n)*!closed{Connection closed}/
/!failed{Failed password}(.|\n)*!closed{Connection closed}/ minus /!failed{Failed password}(.|\n)*Connection closed(.|\n)*!closed{Connection closed}/
/!opened{opened}[^\n]*\n[^\n]*!closed{closed}/
/\n!line{[^\n]*Failed[^\n]*}\n/ minus /\n!line{[^\n]*invalid[^\n]*}\n/
/!a{\d\d:\d\d:\d\d}[^\n]*\n\w+ +\d+ !b{\d\d:\d\d:\d\d}/
/sshd\[!x{\d+}\][^\n]*\n[^\n]*sshd\[!y{\d+}\]/
''')

ask('till.log', shipped('examples/till.log'), r'''
/[^\d]!card{\d{13,19}}[^\d]/ where luhn(card)
/[^\d]!card{\d{13,19}}[^\d]/
/!part{\d{4,6}}/ where luhn(part)
/[^\w]!word{\w+}[^\w]/ where upper(word)
/!word{[A-Z]+}/ where upper(word)
/total !sum{\d+\.\d\d}\n/
/\n!time{\d\d:\d\d:\d\d} till-!till{\d} (paid|PAID) !card{\d+|cash} ref !ref{\d+} total !sum{[\d.]+}\n/
/till-!till{\d} (!void{void}|!paid{[Pp][^ ]+}) /
/(!void{void} )?!card{\d{13,19}} /
/till-!a{\d}(.|\n)*till-!b{\d}/
/!digits{\d+}/ minus /\d!digits{\d+}/ minus /!digits{\d+}\d/
(/!n{\d{3}}/ minus /\d!n{\d+}/) minus /!n{\d+}\d/
/ref !ref{\d+} / where luhn(ref)
/!hour{\d\d}:!minute{\d\d}:!second{\d\d} / where luhn(second)
''')

ask('harbour.txt', shipped('examples/harbour.txt'), r'''
/!word{\w+}/ minus /\w!word{\w+}/ minus /!word{\w+}\w/
/[^\w]!a{\w+} and !b{\w+}[^\w]/
/[^\w]!w{[A-Z]\w*}[^\w]/
/[^\w]!w{\w{9,}}[^\w]/
/[^\w]!w{\w*ing}[^\w]/
/[^\w]!w{\w*(tion|ness|ment)}[^\w]/
/[^\w]!article{a|an|the}\s!noun{\w+}[^\w]/
/\.\s!first{[A-Z]\w*}[^\w]/
/[^\w]!x{(\w)+}, !y{\w+}[^\w]/
/!two{[aeiou]{2}}/
/[^\w](!the{[Tt]he} )?!light{light|lamp}[^\w]/
/\n!line{[^\n]+}\n/ union /^!line{[^\n]+}\n/ union /\n!line{[^\n]+}$/
/\n\n!para{[^\n]{0,40}}/
/[^\w]!one{\w+}[^\w]+!two{\w+}[^\w]+!three{sea|wind|tide}[^\w]/
/[^\w]!w{[Ss]\w+}[^\w]/ union /[^\w]!w{\w+s}[^\w]/
/[^\w]!w{[Ss]\w+}[^\w]/ join /[^\w]!w{\w+s}[^\w]/
/[^\w]!w{[Ss]\w+}[^\w]/ minus /[^\w]!w{\w+s}[^\w]/
project w (/[^\w]!w{\w+} !v{\w+}[^\w]/ minus /[^\w]!w{\w+} !v{the|a|of}[^\w]/)
/[^\w]!first{\w}!rest{\w*}[^\w]/ where upper(first)
/!q{[;:]} !w{\w+}/
/!end{[.!?]}$/ union /!end{[.!?]}\n$/
''', *words('the', 'and', 'was', 'she', 'Martha', 'light'))

ask('harbour.txt, its beginning', shipped('examples/harbour.txt', 1200), r'''
let name = /!name{[A-Z][a-z]+ [A-Z][a-z]+}/; let begins = /^!name{[A-Za-z ]+}/ union /[^\w]!name{[A-Za-z ]+}/; let ends = /!name{[A-Za-z ]+}$/ union /!name{[A-Za-z ]+}[^\w]/; name join begins join ends
let phrase = /!all{the\s!what{\w+}\sof\s(the\s|)!whom{\w+}}/; let begins = /[^\w]!all{[\w\s]+}/; let ends = /!all{[\w\s]+}[^\w]/; project what, whom (phrase join begins join ends)
/!sentence{[A-Z][^.]*\.}/ minus /!sentence{[^.]*\n\n[^.]*\.}/
/!hyphen{\w+-\w+}/ minus /\w!hyphen{[\w-]+}/ minus /!hyphen{[\w-]+}\w/
''')

for name, data in (('quay.txt', shipped('examples/quay.txt')), ('many scripts', made(scripts))):
    ask(name, data, r'''
/[^\p{L}]!word{\p{L}*[à-ÿ]\p{L}*}[^\p{L}]/u
/[^\p{L}]!word{\p{L}{5,}}[^\p{L}]/u
/[^\p{L}\p{M}]!word{[\p{L}\p{M}]+}[^\p{L}\p{M}]/u
/\n!word{[\p{L}\p{M}]+} /u
/!word{\p{Lu}\p{Ll}+}[^\p{L}]/u
/!upper{\p{Lu}{2,}}/u
/!greek{[α-ωΑ-Ωά-ώ]+}[^α-ωΑ-Ωά-ώ]/u
/!russian{[а-яё]{3,}}[^а-яё]/u
/!hebrew{[\u{5d0}-\u{5ea}]+} /u
/!mark{\p{M}+}/u
/!digit{\p{Nd}+}/u
/!number{\p{N}}/u
/!sign{\p{P}}/u
/!money{\p{Sc}} !more{[^\n]}/u
/!space{\p{Zs}}!next{.}/u
/!a{[é-í]}/u
/!han{[\u{4e00}-\u{9fff}]+}/u
/!kana{[\u{3040}-\u{30ff}]+}[^\u{3040}-\u{30ff}]/u
/ !w{[^\p{L}\n]}/u
/!dot{[^\w\s]}\n/u
/\n!first{.}!second{.}/u
/!x{..}$/u
/^!line{[^\n]+}\n/u
/!e{é}/
/!e{é.}/
/!b{[\x80-\xff]+}[\x00-\x7f]/
/!b{\xd0.}/
/ !w{\p{L}+}[ .]/u union /\n!w{\p{L}+} /u
/[^\p{L}]!w{\p{L}+}[^\p{L}]/u minus /!w{[a-zA-Z]+}/u
/!w{\p{L}+} /u join /[^\p{L}]!w{[^ ]{3,5}} /u
project w (/[^\p{L}]!w{\p{Ll}+} !v{\p{L}+}[^\p{L}]/u)
/(!upper{\p{Lu}}|!lower{\p{Ll}})!two{\p{L}{2}}/u
/[^\p{Alphabetic}]!w{\p{Alphabetic}+}[^\p{Alphabetic}]/u
''')

ask('reads.fasta', shipped('examples/reads.fasta'), r'''
/!box{TATA[AT]A}/
/!left{GATC}[ACGT]{2,40}!right{GATC}/
/!frame{ATG([ACG][ACGT]{2}|T[CT][ACGT]|TA[CT]|TG[CGT])*(TAA|TAG|TGA)}/
/!site{GAATTC|GGATCC|AAGCTT}/
/!site{G[AG]AT[CT]C}/
/!run{A{4,}|C{4,}|G{4,}|T{4,}}/
/[^A]!run{A{3,}}[^A]/
/>!name{\w+} [^\n]*\n!begin{[ACGT]{6}}/
/!end{[ACGT]{6}}\n/
/!a{CC[AT]GG}[ACGT]{0,30}!b{CC[AT]GG}/
/!start{ATG}[ACGT]{3}!third{[ACGT]{3}}/
/!x{(AC|GT){3,}}/
/!pal{GATC}/ union /!pal{ACGT}/ union /!pal{TGCA}/
/!site{GGATCC}/ join />!read{\w+} [^\n]*\n[ACGT]*!site{[ACGT]{6}}/
/!g{G+}/ minus /G!g{G+}/ minus /!g{G+}G/
/!gap{[ACGT]{10}}\n>/
''')

ask('made sequences', made(sequences), r'''
/>!name{seq\d+} len=!length{\d+}\n/
/!start{ATG}/
/!stop{TA[AG]|TGA}/
/!motif{[AG][AG][CT][CT]}A/
/!repeat{(CA){2,}}/
/!cpg{CG}[AT]{0,5}!next{CG}/
/!at{[AT]{6,}}/ minus /[AT]!at{[AT]+}/ minus /!at{[AT]+}[AT]/
/\n!first{[ACGT]{10}}[ACGT]*!last{[ACGT]{10}}\n/
/(!eco{GAATTC}|!bam{GGATCC}|!hind{AAGCTT})/
project name (/>!name{seq\d+} [^\n]*\n[ACGT]*GGG[ACGT]*\n/)
/>!name{seq\d+} / minus />!name{seq\d+} [^\n]*\n[ACGT]*(GGG|CCC)[ACGT]*\n/
/!x{ACG}[ACGT]{0,20}!y{CGT}/ minus /!x{ACG}[ACGT]*T{3}[ACGT]*!y{CGT}/
''', *(r'/!site{%s}/' % text for text in ('GATC', 'C[AG]TG', 'A[CT][AG]T', 'TT[ACGT]{2}AA', 'G{2,3}C', '(AT){2}', 'CC[AT]{1,3}GG', r'[^\nA]{8}')))

ask('made proteins', made(proteins), r'''
/!glyc{N[^P\n][ST][^P\n]}/
/!kinase{[RK]{1,2}[^\n]{0,3}[ST]}/
/!zinc{C[^\n]{2,4}C[^\n]{3,12}H[^\n]{3,5}H}/
/>sp\|!id{P\d+}\|!name{\w+}\n/
/!leucine{L[^\n]{6}L[^\n]{6}L}/
/!acid{[DE]{3,}}/
/!aroma{[FWY]}[^\n]{1,3}!other{[FWY]}/
/!x{KDEL}\n/ union /!x{[HK]DE[^\n]}/
/!n{N[^P\n][ST]}/ minus /!n{N[^P\n]S}/
/!trypsin{[KR]}!next{[^P\n]}/
/\n(!m{M})?!five{[A-Z]{5}}/
''')

ask('a web log', made(web_log), r'''
/\n!ip{\d+\.\d+\.\d+\.\d+} - !user{[^ ]+} \[!when{[^\]]+}\] "!verb{[A-Z]+} !path{[^ "]+} HTTP\/1\.1" !code{\d{3}} !bytes{\d+|-} /
/"!verb{GET|POST|HEAD} !path{\/[^ ]*} /
/" !code{[45]\d\d} /
/" 200 !bytes{\d{4,}} "/
/"!path{GET \/api\/v\d[^ ?]*}(\?!words{[^ ]*})? HTTP/
/[?&]!key{\w+}=!value{[^& ]+}/
/ - !user{ada|grace} \[/
/:!hour{\d\d}:!minute{\d\d}:!second{\d\d} /
/"!agent{[^"\n]*}"\n/ minus /"!agent{-}"\n/
/!ip{\d+\.\d+\.\d+\.\d+} -/ minus /\d!ip{[\d.]+} -/
/!file{\w+(\.\w+)+} HTTP/
/\+!url{http:\/\/[^)\n]+}\)/
/\n!ip{[\d.]+} [^\n]*" 404 [^\n]*\n!next{[\d.]+} /
/ !code{\d{3}} / join /" !code{[^2]..} /
/(10|192)\.!rest{[\d.]+} - -/
project path (/"GET !path{[^ ]+} / join /!path{[^ ]+} HTTP\/1.1" 200/)
/"!verb{[A-Z]+} / minus /"!verb{GET} /
''', *(r'/"[A-Z]+ !path{[^ ]+} [^"]+" !code{%s}/' % code for code in ('200', '301', '404', '500', '[45]..')))

ask('a log of a service', made(service_log), r'''
/\n!date{\d{4}-\d\d-\d\d}T!time{[\d:.]+}Z !level{[A-Z]+} \[!worker{[^\]]+}\] !said{[^\n]*}/
/ ERROR \[!worker{worker-\d}\] !said{[^\n]+}\n/
/ !level{WARN|ERROR} /
/took !ms{\d+} ms/
/took !ms{[1-9]\d{2,}} ms\n/
/user=!user{\w+} id=!id{\d+} !how{ok|denied}\n/
/(user=!user{\w+} )?id=!id{\d+} /
/retry !k{[123]\d*} of 3/
/"!file{[^"\n]+}"/
/File "!file{[^"\n]+}", line !line{\d+}, in !call{\w+}\n/
/Traceback [^\n]*\n!after{[^\n]*}\n/
/T(0\d|1[01]):!minute{\d\d}/
/worker-!w{\d}\] (!started{started}|!took{took [^\n]*})\n/
/ ERROR [^\n]*\n[^\n]* !level{INFO|DEBUG} [^\n]*\n/
/!level{INFO|DEBUG|WARN|ERROR} / minus /!level{INFO} /
/id=!id{\d+} / join /=!id{\d{3}} /
(/ WARN \[!w{[^\]]+}\]/ union / ERROR \[!w{[^\]]+}\]/) join /!w{worker-[02]}/
project w (/ ERROR \[!w{worker-\d}\] !said{[^\n]*}/)
let e = /\n!line{[^\n]*ERROR[^\n]*}\n/; let d = /\n!line{[^\n]*denied[^\n]*}\n/; e minus d
let e = /\n!line{[^\n]*ERROR[^\n]*}\n/; let d = /\n!line{[^\n]*denied[^\n]*}\n/; e join d
/ !level{[A-Z]+} / where upper(level)
/id=!id{\d+} / where luhn(id)
''')

ask('a table', made(records), r'''
/\n!id{\d+},!name{[^,\n"]*|"[^"\n]*"},!mail{[^,\n]*},!born{[\d-]*},!sum{[^,\n]*}\n/
/,!mail{[\w.]+@[\w.]+},/
/@!host{(\w+\.)*!top{\w+}},/
/,!year{\d{4}}-!month{\d\d}-!day{\d\d},/
/,!year{1[89][0-4]\d}-/
/,!sum{-?\d+(\.\d+)?}\n/
/,"!last{\w+}, !first{\w+}",/
/\n!empty{\d+},,/
/,!sum{-?\d+(\.\d+)?(e\d+)?}\n/ minus /,!sum{[^.\n]*}\n/
/\n\d+,!name{[A-Z][^,"\n]*},/u
/\n!id{\d+},/ where luhn(id)
/-!month{\d\d}-!day{\d\d},/ minus /-!month{1\d}-!day{\d\d},/
/!accent{[À-ÿ]}/u
project mail (/\n!id{\d+},[^\n]*,!mail{[^,\n]+@[^,\n]+},/)
/,!x{n\/a}\n/ union /,!x{none},/
''')

ask('settings', made(settings), r'''
/\n\[!section{[\w.]+}\]\n/
/\n!key{\w+} ?= ?!value{[^\n]*}\n/
/\n(#|;) ?!comment{[^\n]*}\n/
/"!path{(\/[\w.]+)+}"/
/!scheme{https?}:\/\/!host{[\w.]+}(:!port{\d+})?!path{\/[^ ?#\n]*}(\?!words{[^#\n]*})?(#!place{[^\n]*})?\n/
/[=,] ?!item{\d+}[,\n]/
/'!text{([^'\n]|'')*}'\n/
/\n!blank{()}\n/
/\n!key{[^=\n]+[^=\n ]} *=/ minus /\n!key{[^=\n]* [^=\n]*}=/
/=\s*!value{[^\s][^\n]*}\n/
/!true{true|on|yes}\n/
''')

PAGES = r'''
/\n!head{#+} !title{[^\n]+}\n/
/\[!text{[^\]\n]+}\]\(!target{[^)\n]+}\)/
/[^`]`!code{[^`\n]+}`[^`]/
/\n    \$ !command{[^\n]*}\n/
/\n\| !first{[^|\n]*} \|/
/\n- !item{[^\n]*}\n/
/\n!number{\d+}\. !item{[^\n]*}\n/
/\*\*!strong{[^*\n]+}\*\*/
/[^\w]!word{[A-Z]{2,}}[^\w]/
/!number{\d+(,\d{3})*}/ minus /[\d,]!number{\d[\d,]*}/ minus /!number{[\d,]*\d}[\d,]/
/-e '!query{[^'\n]*}'/
/!option{--?[a-z][\w-]*}[ =`]/
/(\(|`)!path{[\w.-]+(\/[\w.-]+)+}(`|\)|#)/
/[^\w]!a{\w+} !b{or|and} !c{\w+}[^\w]/
/!x{[^\x00-\x7f]}/u
/\n\n!first{[A-Z]\w*} /
/[^\w]!w{\w+}[^\w]/ where upper(w)
/`!code{[^`\n]+}`/ minus /`!code{[^`\n]* [^`\n]*}`/
/\n## !title{[^\n]+}\n/ union /\n# !title{[^\n]+}\n/
project target (/\]\(!target{[^)#\n]*\.md}#?/)
'''
for page in ('README.md', 'docs/LANGUAGE.md', 'docs/FORMATS.md'):
    ask(page, shipped(page, MOST), PAGES)

ask('two sources of the program', shipped_sources(), r'''
/(pub(\(crate\))? )?fn !name{\w+}(<[^>\n]*>)?\(!words{[^)\n]*}\)/
/\n *\/\/\/ !doc{[^\n]*}\n/
/\nuse !path{\w+(::\w+)*}/
/struct !name{\w+} \{\n/
/\n    pub\(crate\) !field{\w+}: !type{[^,\n]+},\n/
/!call{\w+}\(!first{\w+}[,)]/
/let (mut )?!name{\w+}(: !type{[^=\n]+})? = /
/#\[derive\(!names{[^)\n]*}\)\]/
/[^\w]!type{[A-Z]\w*}[^\w]/
/[^\w]!constant{[A-Z][A-Z_]+}[^\w]/
/!operator{[-+*\/=<>!&]=?} /
/[^\w]!number{\d+}[^\w]/
/\{[^{}\n]*!inner{\w+}[^{}\n]*\}/
/[^\w]!w{\w+}[^\w]/ join /[^\w]!w{[A-Z][a-z]+[A-Z][a-z]+}[^\w]/
/[^\w]!name{\w+}\(/ minus /fn !name{\w+}\(/
project name (/fn !name{\w+}[^\n]*Result</)
''')

ask('a source in Python', shipped('tests/pages', MOST), r'''
/\n( *)def !name{\w+}\(!words{[^)\n]*}\):\n/
/\nimport !module{\w+}\n/ union /\nfrom !module{\w+} import /
/\n *"""!doc{[^"\n]+}/
/\n *#!comment{[^\n]*}\n/
/'!text{[^'\n\\]*}'/
/\n!name{[A-Z_]+} = !value{[^\n]*}\n/
/for !each{\w+(, \w+)*} in !all{[^:\n]+}:/
/self\.!field{\w+}[^\w(]/
/self\.!method{\w+}\(/
/return !what{[^\n]*}\n/
/\n!indent{ +}!word{if|for|while|return|def|class}[^\w]/
/[^\w]!name{\w+}\(/ minus /def !name{\w+}\(/ minus /[^\w]!name{print|len|range|open}\(/
/(!not{not} )?!name{\w+} in /
/%!sign{[sdr]}/
/class !name{\w+}(\(!base{[^)\n]*}\))?:\n/
/[\[(]!a{\w+}, !b{\w+}[\])]/
''')

ask('a source in C', shipped('bench/measure.c'), r'''
/#include <!header{[\w\/.]+}>\n/
/#define !name{\w+}/
/\n(static )?!type{\w+} !name{\w+}\(!words{[^)\n]*}\) \{\n/
/!call{\w+}\(!words{[^()\n]*}\);/
/"!text{[^"\n]*}"/
/\/\/ !comment{[^\n]*}\n/
/[^\w]!number{\d+}[^\w]/
/!left{\w+(->|\.)\w+}[^\w]/
/&!name{\w+}/
/if \(!test{[^{};\n]*}\) !then{\w+}/
/[^\w]!word{\w+}[^\w]/ where upper(word)
/!a{\w+}( !op{==|<|>|!=} )!b{\w+}/
''')
