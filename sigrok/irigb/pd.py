##
## This file is part of irig.
##
## Licensed under MIT or Apache-2.0, as you like: LICENSE-MIT, LICENSE-APACHE.
##

import sigrokdecode as srd
from . import frame

class SamplerateError(Exception):
    pass

class Ann:
    (ZERO, ONE, MARKER, BAD, ELEMENT, SECOND, MINUTE, HOUR, DAY, YEAR, LEAP,
     DST, OFFSET, QUALITY, PARITY, SBS, CLAIM, POOR, FAULT, LATE, OUT) = range(21)

PULSES = {
    '0': (Ann.ZERO, '0', '0'),
    '1': (Ann.ONE, '1', '1'),
    'P': (Ann.MARKER, 'Marker', 'P'),
    '?': (Ann.BAD, 'Bad pulse', '?'),
}
TIME = (Ann.SECOND, Ann.MINUTE, Ann.HOUR, Ann.DAY, Ann.YEAR)

class Decoder(srd.Decoder):
    api_version = 3
    id = 'irigb'
    name = 'IRIG-B'
    longname = 'IRIG-B time code'
    desc = 'Time code B004 (IRIG Standard 200-16, control bits of IEEE 1344).'
    license = 'mit'
    inputs = ['logic']
    outputs = []
    tags = ['Clock/timing']
    channels = (
        {'id': 'data', 'name': 'DATA', 'desc': 'IRIG-B line, unmodulated'},
    )
    options = (
        {'id': 'polarity', 'desc': 'Polarity', 'default': 'active-high',
            'values': ('active-high', 'active-low')},
        {'id': 'parity', 'desc': 'Parity', 'default': 'even',
            'values': ('even', 'odd')},
        {'id': 'sense', 'desc': 'From coded time to UTC the offset is to be',
            'default': 'add', 'values': ('add', 'subtract')},
        {'id': 'sbs', 'desc': 'Straight binary seconds', 'default': 'check',
            'values': ('check', 'ignore')},
    )
    annotations = (
        ('zero', 'Binary 0'),
        ('one', 'Binary 1'),
        ('marker', 'Marker'),
        ('bad-pulse', 'Bad pulse'),
        ('element', 'Element'),
        ('second', 'Second'),
        ('minute', 'Minute'),
        ('hour', 'Hour'),
        ('day', 'Day of the year'),
        ('year', 'Year'),
        ('leap', 'Leap second'),
        ('dst', 'Daylight saving'),
        ('offset', 'Offset'),
        ('quality', 'Time quality'),
        ('parity', 'Parity'),
        ('sbs', 'Straight binary seconds'),
        ('claim', 'Claimed second of UTC'),
        ('poor', 'Poor quality'),
        ('fault', 'Fault'),
        ('late', 'Not on time'),
        ('out', 'Out of step'),
    )
    annotation_rows = (
        ('pulses', 'Pulses', (Ann.ZERO, Ann.ONE, Ann.MARKER, Ann.BAD)),
        ('elements', 'Elements', (Ann.ELEMENT,)),
        ('fields', 'Fields', tuple(range(Ann.SECOND, Ann.SBS + 1))),
        ('frames', 'Frames', (Ann.CLAIM, Ann.POOR)),
        ('faults', 'Faults', (Ann.FAULT,)),
        ('step', 'Step', (Ann.LATE, Ann.OUT)),
    )

    def __init__(self):
        self.reset()

    def reset(self):
        self.samplerate = None
        self.counted = [] # Start and symbol of each pulse of this frame.
        self.last_start = None
        self.was_marker = False

    def start(self):
        self.out_ann = self.register(srd.OUTPUT_ANN)

    def metadata(self, key, value):
        if key == srd.SRD_CONF_SAMPLERATE:
            self.samplerate = value

    def us(self, samples):
        return samples * 1000000 / self.samplerate

    def ms_text(self, samples):
        return '%.2f ms' % (self.us(samples) / 1000)

    def putx(self, ss, es, cls, *texts):
        self.put(ss, es, self.out_ann, [cls, list(texts)])

    def begin(self, element):
        # Nobody has seen yet where the element behind the last one begins.
        if element < len(self.counted):
            return self.counted[element][0]
        return self.counted[-1][0] + int(self.samplerate // 100)

    def pute(self, first, last, cls, *texts):
        # An annotation of these elements of the frame.
        self.putx(self.begin(first), self.begin(last + 1), cls, *texts)

    def put_fault(self, fault):
        text = str(fault)
        self.pute(fault.first, fault.last, Ann.FAULT, 'Fault ' + text, text,
            str(fault.number))

    def put_pulse(self, start, end, symbol):
        cls, text, letter = PULSES[symbol]
        width = self.ms_text(end - start)
        self.putx(start, end, cls, '%s: %s' % (text, width), text, letter)

    def place_of(self, is_marker, is_on_time):
        # The pulse's place in its frame, 1 to 100, or 0 if it is out of step.
        place = len(self.counted)
        if is_marker and (self.was_marker or not is_on_time):
            return 1
        if is_on_time and 1 <= place <= 99:
            return place + 1
        if is_on_time and place == 100:
            return 1
        return 0

    def handle_gap(self, start):
        # Whether the pulse that starts here is on time behind the last one.
        if self.last_start is None:
            return False
        gap = start - self.last_start
        is_on_time = 9000 <= self.us(gap) < 11000
        if self.counted and not is_on_time:
            width = self.ms_text(gap)
            text = 'Not on time: %s behind the pulse before' % width
            self.putx(self.last_start, start, Ann.LATE, text, 'Not on time', width, 'T')
        return is_on_time

    def handle_pulse(self, start, end):
        symbol = frame.symbol_of(self.us(end - start))
        self.put_pulse(start, end, symbol)
        place = self.place_of(symbol == 'P', self.handle_gap(start))
        if place < 2:
            self.handle_end()
        if place == 0:
            self.putx(start, end, Ann.OUT, 'Out of step', 'Out', 'O')
        else:
            self.counted.append((start, symbol))
        if place == 100:
            self.handle_frame()
        self.last_start = start
        self.was_marker = symbol == 'P'

    def handle_end(self):
        # No pulse of this frame comes any more.
        count = len(self.counted)
        if 1 <= count < 100:
            self.put_fault(frame.Fault(1, 'Short', 0, count - 1, count))
        self.counted = []

    def handle_frame(self):
        symbols = ''.join(symbol for _, symbol in self.counted)
        for place, name in enumerate(frame.ELEMENTS):
            if name != '.':
                self.pute(place, place, Ann.ELEMENT, '%s: element %d' % (name, place), name)
        try:
            frame.check_symbols(symbols)
            self.put_time(symbols)
            self.put_control(symbols)
            self.put_told(symbols)
        except frame.Fault as fault:
            self.put_fault(fault)

    def put_time(self, symbols):
        for cls, field in zip(TIME, frame.FIELDS):
            first, last = field[4:]
            name = self.annotations[cls][1]
            try:
                value = str(frame.value_of(symbols, field) + (2000 if cls == Ann.YEAR else 0))
            except frame.Fault:
                value = '?'
            self.pute(first, last, cls, '%s: %s' % (name, value), value)

    def put_control(self, symbols):
        is_one = lambda name: frame.is_one(symbols, name)
        leap = 'none'
        if is_one('LP'):
            leap = 'delete' if is_one('LD') else 'insert'
        self.pute(60, 61, Ann.LEAP, 'Leap second: %s' % leap, 'Leap: %s' % leap, leap)
        dst = 'on' if is_one('DS') else 'off'
        if is_one('DP'):
            dst += ', about to change'
        self.pute(62, 63, Ann.DST, 'Daylight saving: %s' % dst, 'DST: %s' % dst, dst)
        hours = '%+g h' % (frame.half_hours_of(symbols) / 2)
        self.pute(64, 70, Ann.OFFSET, 'Offset: %s' % hours, hours)
        quality = frame.quality_of(symbols)
        word = {0: ' (locked)', 15: ' (failure)'}.get(quality, '')
        self.pute(71, 74, Ann.QUALITY, 'Time quality: %d%s' % (quality, word),
            'Quality: %d' % quality, '%d' % quality)
        word = 'right' if frame.has_parity(symbols, self.options['parity']) else 'wrong'
        self.pute(75, 75, Ann.PARITY, 'Parity: %s' % word, word)
        seconds = frame.binary_seconds_of(symbols)
        self.pute(80, 97, Ann.SBS, 'Straight binary seconds: %d' % seconds,
            'SBS: %d' % seconds, '%d' % seconds)

    def put_told(self, symbols):
        if not frame.has_parity(symbols, self.options['parity']):
            raise frame.Fault(17, 'Parity', 1, 75)
        second, mark = frame.claim_of(symbols, self.options['sense'], self.options['sbs'])
        quality = frame.quality_of(symbols)
        if quality >= frame.POOR:
            self.pute(0, 99, Ann.POOR, 'Poor quality %d' % quality, 'Poor %d' % quality)
        else:
            mark = ' (%s)' % mark if mark else ''
            self.pute(0, 99, Ann.CLAIM, 'UTC %s%s' % (second, mark), second + mark,
                second[11:19])

    def decode(self):
        if not self.samplerate:
            raise SamplerateError('Cannot decode without samplerate.')
        is_high = self.options['polarity'] == 'active-high'
        begin, end = ('r', 'f') if is_high else ('f', 'r')
        while True:
            self.wait({0: begin})
            start = self.samplenum
            self.wait({0: end})
            self.handle_pulse(start, self.samplenum)
