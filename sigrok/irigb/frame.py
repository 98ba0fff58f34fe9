##
## This file is part of irig.
##
## Licensed under MIT or Apache-2.0, as you like: LICENSE-MIT, LICENSE-APACHE.
##

'''
What the 100 symbols of a frame say. Each is 0, 1, P for a marker, or ? for a
pulse of another width.
'''

import datetime

# The names of the elements: of data the letter of its field and its weight.
# A dot belongs to no field.
ELEMENTS = '''
    PR   s1   s2  s4  s8  .   s10 s20 s40 P1
    m1   m2   m4  m8  .   m10 m20 m40 .   P2
    h1   h2   h4  h8  .   h10 h20 .   .   P3
    d1   d2   d4  d8  .   d10 d20 d40 d80 P4
    d100 d200 .   .   .   .   .   .   .   P5
    y1   y2   y4  y8  .   y10 y20 y40 y80 P6
    LP   LD   DP  DS  o-  o1  o2  o4  o8  P7
    o½   q1   q2  q4  q8  par .   .   .   P8
    b0   b1   b2  b3  b4  b5  b6  b7  b8  P9
    b9   b10  b11 b12 b13 b14 b15 b16 .   P0
'''.split()

# The fields of the time, in the order in which they are read: the letter, the
# name, the least and the greatest value, the first and the last element.
FIELDS = (
    ('s', 'second', 0, 60, 1, 8),
    ('m', 'minute', 0, 59, 10, 17),
    ('h', 'hour', 0, 23, 20, 26),
    ('d', 'day', 1, 366, 30, 41),
    ('y', 'year', 0, 99, 50, 58),
)
EPOCH = datetime.date(2000, 1, 1)
FIRST_DAY, LAST_DAY = 1, 36523 # 2000-01-02 and 2099-12-30
POOR = 10 # A quality from here on is too poor to be believed.

class Fault(Exception):
    '''A fault of a frame, and the elements where it lies.'''

    def __init__(self, number, name, first, last, detail=None):
        words = [str(number), name] + ([] if detail is None else [str(detail)])
        super().__init__(' '.join(words))
        self.number = number
        self.first = first
        self.last = last

def symbol_of(width_us):
    for symbol, nominal in (('0', 2000), ('1', 5000), ('P', 8000)):
        if nominal - 1500 <= width_us < nominal + 1500:
            return symbol
    return '?'

def is_one(frame, name):
    return frame[ELEMENTS.index(name)] == '1'

def check_symbols(frame):
    for place, (symbol, name) in enumerate(zip(frame, ELEMENTS)):
        if symbol == '?':
            raise Fault(3, 'Pulse', place, place, place)
        if (symbol == 'P') != (name[0] == 'P'):
            raise Fault(4, 'Marker', place, place, place)

def has_parity(frame, parity):
    return frame[1:76].count('1') % 2 == (1 if parity == 'odd' else 0)

def digits_of(frame, letter):
    '''The decimal digits of a field, units first.'''
    digits = [0, 0, 0]
    for symbol, name in zip(frame, ELEMENTS):
        if symbol == '1' and name[0] == letter:
            power = len(name) - 2
            digits[power] += int(name[1:]) // 10 ** power
    return digits

def value_of(frame, field):
    letter, name, least, most, first, last = field
    digits = digits_of(frame, letter)
    if max(digits) > 9:
        raise Fault(5, 'Digit', first, last, name)
    value = digits[0] + 10 * digits[1] + 100 * digits[2]
    if not least <= value <= most:
        raise Fault(6, 'Range', first, last, name)
    return value

def half_hours_of(frame):
    '''The offset as it is coded.'''
    count = sum(2 * hours for hours in (1, 2, 4, 8) if is_one(frame, 'o%d' % hours))
    count += is_one(frame, 'o½')
    return -count if is_one(frame, 'o-') else count

def quality_of(frame):
    return sum(weight for weight in (1, 2, 4, 8) if is_one(frame, 'q%d' % weight))

def binary_seconds_of(frame):
    return sum(1 << bit for bit in range(17) if is_one(frame, 'b%d' % bit))

def utc_minute_of(minute, hour, day, year, half_hours):
    '''The UTC day, counted from 2000-01-01, and the minute of that day.'''
    if day == 366 and year % 4:
        raise Fault(7, 'NoSuchDay', 30, 41)
    days = 365 * year + (year + 3) // 4 + day - 1
    days, minute = divmod(1440 * days + 60 * hour + minute + 30 * half_hours, 1440)
    if not FIRST_DAY <= days <= LAST_DAY:
        raise Fault(8, 'OutOfYears', 30, 58)
    return days, minute

def mark_of(frame, second, is_last_minute):
    '''What the frame says of a leap second at the end of the UTC month.'''
    if not is_last_minute or not 1 <= second <= 59:
        return ''
    if not is_one(frame, 'LP'):
        return 'no-leap'
    return 'delete' if is_one(frame, 'LD') else 'insert'

def claim_of(frame, sense, sbs):
    '''The second of UTC that a frame claims, and its mark.'''
    second, minute, hour, day, year = (value_of(frame, field) for field in FIELDS)
    coded = 3600 * hour + 60 * minute + second
    if sbs == 'check' and second < 60 and binary_seconds_of(frame) != coded:
        raise Fault(18, 'Sbs', 80, 97)
    half_hours = half_hours_of(frame)
    if sense == 'subtract':
        half_hours = -half_hours
    days, minute = utc_minute_of(minute, hour, day, year, half_hours)
    date = EPOCH + datetime.timedelta(days)
    is_last_day = (date + datetime.timedelta(1)).day == 1
    is_last_minute = is_last_day and minute == 1439
    if second == 60 and not is_last_minute:
        raise Fault(9, 'Second60', 1, 8)
    mark = mark_of(frame, second, is_last_minute)
    if second == 59 and mark == 'delete':
        raise Fault(10, 'DeletedSecond', 60, 61)
    return '%sT%02d:%02d:%02dZ' % (date, minute // 60, minute % 60, second), mark
