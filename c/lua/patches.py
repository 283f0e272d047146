"""The changes to the files of Lua 5.4 that make its finalizers those of derrimas_finalizers.h: functions that are removed, statements that are removed or
inserted, fields that are removed. No line of Lua is quoted. A place is found by the function and the names in it, and must exist exactly as often as given.
`replaced` returns the changed files by name. `alike` changes the collector of either build so that both have the same pace: then programs that are compared by
their memory print the same."""
import re

# Functions of lgc.c that lgc.c of this folder replaces, or that nothing calls any more.
GONE = ['udata2finalize', 'findlast', 'separatetobefnz', 'checkpointer', 'correctpointers', 'luaC_checkfinalizer', 'markbeingfnz']
# The lists of objects with finalizers: those that have one, the young ones among them, and those whose finalizers wait.
LISTS = r'\b(?:finobj\w*|tobefnz)\b'


def blanked(text):
    """The text with comments replaced by blanks."""
    return re.sub(r'/\*.*?\*/', lambda it: re.sub(r'[^\n]', ' ', it[0]), text, flags=re.S)


class Source:
    """A C file, which is changed place by place."""

    def __init__(self, text):
        self.text = text

    def only(self, pattern, what, within=None, times=1):
        """The places where a pattern matches the text without comments, in a function or in the whole file. Their number has to be the expected one."""
        begin, end = within or (0, len(self.text))
        found = [it.span() for it in re.compile(pattern, re.M | re.S).finditer(blanked(self.text), begin, end)]
        if len(found) != times:
            raise RuntimeError(f'{what}: {len(found)} places, and not {times}')
        return found

    def function(self, name):
        """The position of a function's definition."""
        return self.only(rf'^[A-Za-z_][\w \*]*\b{name} *\([^;{{}}]*\) *\{{.*?^\}}\n', name)[0]

    def cut(self, places, new=''):
        for begin, end in sorted(places, reverse=True):
            self.text = self.text[:begin] + new + self.text[end:]

    def without_function(self, name):
        self.cut([self.function(name)])

    def without_statements(self, name, words, times):
        """Removes the statements of a function that contain one of these words."""
        self.cut(self.only(rf'[^;{{}}]*(?:{words})[^;{{}}]*;', f'statements of {name} with {words}', self.function(name), times))

    def without_case(self, name, label):
        self.cut(self.only(rf'^ *case {label}\b.*?^    \}}\n', f'the case {label} of {name}', self.function(name)))

    def without_field(self, name):
        self.cut(self.only(rf'^ *GCObject \*{name};[^\n]*\n', f'the field {name}'))

    def put(self, name, pattern, new, times=1):
        """Replaces what a pattern matches in a function."""
        self.cut(self.only(pattern, f'{pattern} in {name}', self.function(name), times), new)

    def put_before(self, name, pattern, new):
        """Inserts text in a function before what a pattern matches."""
        begin, _ = self.only(pattern, f'{pattern} in {name}', self.function(name))[0]
        self.cut([(begin, begin)], new)

    def put_anywhere(self, pattern, new, times=1):
        self.cut(self.only(pattern, pattern, times=times), new)


def collector(text):
    """lgc.c, as lgc.c of this folder includes it."""
    lgc = Source(text)
    for name in GONE:
        lgc.without_function(name)
    lgc.without_statements('youngcollection', rf'{LISTS}|\bdummy\b', 10)
    lgc.put_before('youngcollection', r'\bfinishgencycle\b', 'young_collection_ends(g); ')
    lgc.without_statements('atomic2gen', LISTS, 3)
    lgc.put_before('atomic2gen', r'\bfinishgencycle\b', 'all_become_old(g); ')
    lgc.without_statements('enterinc', LISTS, 3)
    lgc.put_before('enterinc', r'\bg->gcstate\b', 'none_is_old(g); ')
    # everything that is swept is in one list
    lgc.put('singlestep', r'GCSswpfinobj, &g->finobj\b', 'GCSswpend, NULL')
    lgc.without_case('singlestep', 'GCSswpfinobj')
    lgc.without_case('singlestep', 'GCSswptobefnz')
    lgc.without_statements('luaC_freeallobjects', r'\bfinobj\b', 2)
    lgc.put_before('luaC_freeallobjects', r'\bdeletelist *\([^;]*\bfixedgc\b', 'close_finalizers(g); ')
    lgc.put_anywhere(r'\bg->tobefnz\b', 'has_waiting(g)', 3)
    return lgc.text


def interface(text):
    """lapi.c: an object is registered before it gets its metatable, so a refused registration changes nothing."""
    lapi = Source(text)
    lapi.without_statements('lua_setmetatable', r'\bluaC_checkfinalizer\b', 2)
    lapi.put_before('lua_setmetatable', r'\bswitch\b',
                    'if (mt != NULL && (ttistable(obj) || ttisfulluserdata(obj))) luaC_checkfinalizer(L, gcvalue(obj), mt); ')
    return lapi.text


def state(text):
    """lstate.h: one field replaces five lists. Their space is kept, since the size of the state counts in the pace of collections."""
    lstate = Source(text)
    for name in ('tobefnz', 'finobjsur', 'finobjold1', 'finobjrold'):
        lstate.without_field(name)
    lstate.put_anywhere(r'\bGCObject \*finobj;', 'struct finalizing *finalizing; void *room[4];')
    return lstate.text


def opening(text):
    """lstate.c: a state without finalizers."""
    lstate = Source(text)
    lstate.put('lua_newstate', r'\bg->finobj = g->tobefnz =', 'g->finalizing = NULL;')
    lstate.without_statements('lua_newstate', LISTS, 1)
    return lstate.text


def replaced(texts):
    """The changed files of the package by their names in the build, from the package's texts by name."""
    return {'lgc_package.c': collector(texts['lgc.c']), 'lapi.c': interface(texts['lapi.c']), 'lstate.h': state(texts['lstate.h']),
            'lstate.c': opening(texts['lstate.c'])}


def alike(text):
    """lgc.c of either build, changed so that the sweep is a single step without cost: then it doesn't matter how many lists the objects are in. When a
    generational collection turns into an incremental one, the estimate of memory is made after the sweep has begun, which frees dead objects at the beginning
    of a list."""
    lgc = Source(text)
    lgc.put('sweepstep', r'\breturn count;', 'return 0;')
    begin, end = lgc.only(r'(?<=\bwhile \()debt > [^;]*(?=\);)', 'the end of incstep', lgc.function('incstep'))[0]
    lgc.cut([(begin, end)], f'issweepphase(g) || ({lgc.text[begin:end]})')
    begin, end = lgc.only(r'\bg->GCestimate = [^;]*;', 'the estimate of stepgenfull', lgc.function('stepgenfull'))[0]
    estimate = lgc.text[begin:end]
    lgc.cut([(begin, end)])
    sweep = lgc.only(r'\bentersweep\([^;]*;', 'the sweep of stepgenfull', lgc.function('stepgenfull'))[0][1]
    lgc.cut([(sweep, sweep)], f' {estimate}')
    return lgc.text
