"""What a store shows after calls that were answered: a model in Python, for scripts that ask the built program.

A call is a list: its number and its arguments, as docs/FORMATS.md has them."""
import bisect
import struct
import sys
import pathlib

sys.path.insert(0, str(pathlib.Path(__file__).resolve().parent.parent / 'examples'))
from frames import frame, search, unpacked

START, END, DELETE, SEARCH, KV_SET, KV_GET, KV_LIST, ALIAS_SET, ALIAS_DELETE, ALIAS_LIST, STATUS, END_BY, KV_DELETE = range(1, 14)
TAGS = {END: 'history', END_BY: 'history', DELETE: 'history', KV_SET: 'kv', KV_DELETE: 'kv', ALIAS_SET: 'dotfiles-shell-alias', ALIAS_DELETE: 'dotfiles-shell-alias'}
WRITING = (START, *TAGS)
UNKNOWN_ID, UNKNOWN_NAME = 2, 3


class Model:
    """Commands by id with the number of their Start, the newest last; values, aliases, records a tag, and the number of entries."""

    def __init__(self):
        self.entries, self.running, self.ended, self.newest, self.values, self.aliases, self.records = 0, {}, {}, [], {}, {}, {}

    def copy(self):
        other = Model()
        other.entries = self.entries
        for name in ('running', 'ended', 'newest', 'values', 'aliases', 'records'):
            setattr(other, name, getattr(self, name).copy())
        return other

    def refusal(self, call):
        """The number under which a call is refused here, 0 where it isn't."""
        kind, *args = call
        if kind in (END, END_BY) and args[0] not in self.running or kind == DELETE and args[0] not in self.ended:
            return UNKNOWN_ID
        return UNKNOWN_NAME if kind == ALIAS_DELETE and args[0] not in self.aliases or kind == KV_DELETE and tuple(args) not in self.values else 0

    def write(self, call, identity=None):
        """Takes in a writing call that was done, a Start with its id; gives what it is answered."""
        kind, *args = call
        self.entries += 1
        if kind == START:
            self.running[identity] = (self.entries, *args)
            return identity
        if kind in (END, END_BY):
            started = self.running.pop(args[0])
            self.ended[args[0]] = (started[0], *args[1:3], *started[1:])
            bisect.insort(self.newest, (started[0], args[0]))
        elif kind == DELETE:
            self.newest.remove((self.ended.pop(args[0])[0], args[0]))
        elif kind == KV_SET:
            self.values[tuple(args[:2])] = args[2]
        elif kind == KV_DELETE:
            self.values.pop(tuple(args))
        elif kind == ALIAS_SET:
            self.aliases[args[0]] = args[1]
        elif kind == ALIAS_DELETE:
            self.aliases.pop(args[0])
        self.records[TAGS[kind]] = self.records.get(TAGS[kind], 0) + 1
        return self.records[TAGS[kind]] - 1

    def hits(self, call):
        """What a search gives, without timestamps: the newest first, which is the order of the Starts."""
        _, mode, by, past, text, unique, offset, limit = call
        folds = not any('A' <= letter <= 'Z' for letter in text)
        found, seen = [], set()
        for _, identity in reversed(self.newest):
            if len(found) == offset + limit:
                break
            command, cwd, session, hostname = (hit := self.ended[identity])[3:]
            looked_at = folded(command) if folds else command
            if by and (hostname, session, cwd)[by - 1] != past or not (text in looked_at if mode else looked_at.startswith(text)):
                continue
            if unique and command in seen:
                continue
            seen.add(command)
            found.append([identity, *hit[1:]])
        return found[offset:]

    def reads(self, call):
        """What a call that only reads is answered, a search without its timestamps, a status without its host."""
        kind, *args = call
        if kind == SEARCH:
            return self.hits(call)
        if kind == KV_GET:
            return self.values.get(tuple(args))
        if kind == KV_LIST:
            return sorted((key for namespace, key in self.values if namespace == args[0] and (key > args[1] or not args[1])), key=str.encode)[: args[2]]
        if kind == ALIAS_LIST:
            return [list(it) for it in sorted(self.aliases.items()) if it[0] > args[0] or not args[0]][: args[1]]
        return sorted([tag, count] for tag, count in self.records.items())

    def shown(self):
        return self.entries, sorted((key, hit[1], hit[2], hit[3]) for key, hit in self.ended.items()), self.values, self.aliases


def folded(text):
    return ''.join(chr(ord(it) + 32) if 'A' <= it <= 'Z' else it for it in text)


def told(call, items):
    """The answer of a reply's items, as `reads` and `write` have it."""
    if call[0] == SEARCH:
        return [[hit[0], *hit[2:]] for hit in items[0]]
    return sorted(chain[1:] for chain in items[0]) if call[0] == STATUS else items[0]


def asked(to, source, request):
    """The reply's items; EOFError where the program is gone before the whole reply."""
    try:
        to.write(request)
        to.flush()
    except OSError:
        raise EOFError from None
    try:
        head = source.read(4)
        payload = source.read(struct.unpack('>I', head)[0]) if len(head) == 4 else b''
    except OSError:
        raise EOFError from None
    if len(head) < 4 or len(payload) < struct.unpack('>I', head)[0]:
        raise EOFError
    return unpacked(payload)[0]


def shown_by(to, source, keys):
    """What a store shows: entries, commands, the values of these pairs, aliases."""
    hits, offset = [], 0
    while True:
        number, entries, found = asked(to, source, search(offset=offset, limit=1000))
        assert number == 0
        hits += found
        offset += len(found)
        if not found:
            break
    values = {}
    for key in keys:
        found = asked(to, source, frame([KV_GET, *key]))[2]
        if found is not None:
            values[key] = found
    aliases = dict(asked(to, source, frame([ALIAS_LIST, '', 1000]))[2])
    return entries, sorted((hit[0], hit[2], hit[3], hit[4]) for hit in hits), values, aliases
