"""Routes and their lines for the measurements."""


def random_length(numbers):
    """A length as a table of the Internet has them: mostly 24."""
    roll = numbers.randrange(100)
    for share, length in ((62, 24), (72, 23), (82, 22), (87, 21), (92, 20)):
        if roll < share:
            return length
    return numbers.randrange(9, 33)


def random_prefixes(numbers, count, octets):
    """So many prefixes, each once, that begin with one of the octets."""
    prefixes = {}
    while len(prefixes) < count:
        length = random_length(numbers)
        bits = numbers.choice(octets) << 24 | numbers.getrandbits(24)
        prefixes[bits >> 32 - length << 32 - length, length] = None
    return list(prefixes)


def addr_text(bits):
    return ".".join(str(bits >> shift & 255) for shift in (24, 16, 8, 0))


def route_line(verb, route, hop):
    """The line of a route: its bits, its length and, if it has one, its metric."""
    bits, length, *metric = route
    words = f" metric {metric[0]}" if metric else ""
    return f"route {verb} {addr_text(bits)}/{length} via 192.0.2.{hop} dev eth0{words}\n"


def hosts(numbers, count, base, free_bits):
    """So many host routes that differ in their last bits."""
    return [(base | bits, 32) for bits in numbers.sample(range(1 << free_bits), count)]


def by_metric(prefixes, count):
    """So many routes: each prefix has one of each metric, as far as they go."""
    return [(*prefixes[number % len(prefixes)], number // len(prefixes) + 1) for number in range(count)]


def staircase(numbers, count):
    """So many prefixes of 10/8: of each of some addresses those of all lengths."""
    prefixes = {}
    while len(prefixes) < count:
        bits = 10 << 24 | numbers.getrandbits(24)
        for length in range(8, 33):
            prefixes[bits >> 32 - length << 32 - length, length] = None
    return list(prefixes)[:count]


def short_prefixes():
    """All prefixes shorter than 8 bits."""
    return [(bits << 32 - length, length) for length in range(8) for bits in range(1 << length)]


def tables(numbers, count):
    """The routes of each table that holds so many."""
    yield "as in a full table", random_prefixes(numbers, count, range(1, 223))
    yield "hosts at random", hosts(numbers, count, 0, 32)
    yield "hosts of one /8", hosts(numbers, count, 10 << 24, 24)
    if count < 1 << 16:
        yield "hosts of one /16", hosts(numbers, count, 10 << 24 | 8 << 16, 16)
    yield "one prefix", by_metric([(10 << 24, 24)], count)
    yield "5,000 metrics each", by_metric([(number << 24, 24) for number in range(1, count // 5_000 + 2)], count)
    if count <= 15 << 12:
        yield "15 metrics in a /20", by_metric(hosts(numbers, -(-count // 15), 10 << 24, 12), count)
    yield "shorter than 8 bits", by_metric(short_prefixes(), count)
    yield "a staircase", staircase(numbers, count)
