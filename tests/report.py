#!/usr/bin/env python3
"""Tests the report on short scripts with answers written by hand, and on the sample day as the console answers it.

What the sample days have to come to is worked out by hand from documents 01 and 02, not taken from the console.

Usage: report.py PROGRAM   (the bench console)
"""
import dataclasses
import json
import os
import pathlib
import re
import subprocess
import sys
import tempfile
import xml.etree.ElementTree as ElementTree
import zlib

import interrupts
import polling
import ticks

ROOT = pathlib.Path(__file__).resolve().parent.parent
REPORT, DAY = ROOT / 'tools' / 'report', ROOT / 'examples' / 'day.txt'
INTERRUPTS, TICKS = ROOT / 'examples' / 'interrupts.txt', ROOT / 'examples' / 'ticks.txt'
STATION, BROADCAST = bytes.fromhex('020000000001'), b'\xff' * 6
# the group whose bit the firmware sets on the sample day; no frame comes to it but in hash mode
GROUP = bytes.fromhex('030000000001')
SVG = '{http://www.w3.org/2000/svg}'

# ---- the sample day, by hand

# answers to the grants and to the frames, in the script's order
GRANTS = [0, 0, 0, 14, 13, 0, 0, 0, 0, 0, 0, 0, 0, 0, 0, 0, 0, 0, 0]
FRAMES = [8, 0, 0, 6, 6, 5, 4, 0, 0, 0, 0, 0, 8, 0, 0, 6, 0, 0, 8, 3, 0, 0, 8, 0, 0, 11]
# the frames that come with receive-all set
TO_ALL = (16, 17)
# the burst's number, then the answer to each of its pairs, and what the picture shows of them
BURST = [0, 0, 0, 16, 8]
BURST_MARKS = ['delivered', 'delivered', 'refused', 'lost']
# the ring's fill: three grants, three frames, four grants, four frames, one grant, one frame, two grants, two frames of
# the burst, one grant and one frame of the group, two grants and two frames with receive-all, three of one grant and one
# frame each in the passages about polling, and one more in that about interrupts
FILL = [0, 1, 2, 3, 2, 1, 0, 1, 2, 3, 4, 3, 2, 1, 0, 1, 0, 1, 2, 1, 0, 1, 0, 1, 2, 1, 0, 1, 0, 1, 0, 1, 0, 1, 0]
# why each delivered frame was taken: the broadcast, results for the station up to the two of the burst, the group's, two with
# receive-all, and four more results
REASONS = ['broadcast', *['own address'] * 9, 'group', 'receive-all', 'receive-all', *['own address'] * 4]
# the packet status words that are looked at: 95 and 64 bytes, broadcast bit 28, multicast bit 27
STATUSES = [
    '5f000010: packet status of descriptor 1 of the ring, returned, length 95, broadcast',
    '40000000: packet status of descriptor 2 of the ring, returned, length 64',
    '40000008: packet status of descriptor 3 of the ring, returned, length 64, multicast',
    '40000000: packet status of descriptor 4 of the ring, returned, length 64',
    '5f000000: packet status of descriptor 1 of the ring, returned, length 95',
]
# the broadcast has 14 + 77 + 4 bytes, each result 64; the sends have 64, 64, 66 + 4 and, behind the time-out, the last again
TOTALS = [
    'calls 197',
    'grants made 17',
    'grants refused 2',
    '13 1 descriptor not at a multiple of 4 or not all in the window',
    '14 1 descriptor already granted',
    'bursts made 1 4 pairs, 1 outside the store',
    'bursts refused 0',
    'frames delivered 17 1150 bytes',
    'own address 13',
    'broadcast 1',
    'group 1',
    'receive-all 2',
    'frames lost 5 320 bytes',
    'frames refused 7',
    '3 1 that engine is not running',
    '4 1 frame under 64 or over 1,518 bytes',
    '5 1 frame check sequence wrong',
    '6 3 address not for this station',
    "11 1 lent memory not of the window's length",
    'frames sent 4 268 bytes',
    'ticks made 5',
    'ticks refused 0',
    'TX_TO set 1',
    'interrupts taken 2',
    '1 VIC0.11 (ENET)',
    '1 VIC1.0 (UART0)',
    'interrupts ended 2',
    'still in service 0',
    'deepest nesting 2',
    'nothing taken 0 VIC0_VAR read without an answer',
]
# seven frames are refused, and one pair is outside
MARKS = {'grants': 17, 'delivered': 17, 'lost': 5, 'refused': 8, 'sent': 3, 'TX_TO': 1, 'taken': 2, 'ended': 2}
SHOWN = ['1042;41,7', '1043;0,185', '1045;41,700', '1044;38,25', '1046;40,05', '1047;39,9', '1048;42,125', '2017;37,6',
         '3108;40,25', '5012;39,4', '7015;38,1', '7016;36,8', '7017;37,45', '8021;40,6']
# what the day says of the hash: the write of its mode and of its bit, the frames of the two groups, the mode set back
HASHED = [
    'write 400 0002000c -> 0 done: MCR (MAC control): AFM=1, TE, RE; receive-all off, multicast by hash',
    'write 410 00000200 -> 0 done: MCLA (multicast hash low): bit 9 set',
    'frame (64 bytes, to 03-00-00-00-00-01 (MCLA bit 9), 88B5 "5012;39,4") -> 0 delivered: group',
    'frame (64 bytes, to 03-00-00-00-00-02 (MCLA bit 30), 88B5 "6034;38,9") -> 6 refused: address not for this station',
    'show 20000020 -> 0 done: descriptor 3 of the ring holds 60 bytes, to 03-00-00-00-00-01, 88B5 "5012;39,4"',
    f'peek 2000002c 4 -> {STATUSES[2]}',
    'write 400 0000000c -> 0 done: MCR (MAC control): TE, RE; receive-all off, all-multicast off',
]
# what it says of polling: the engines at each start, and each frame or send that finds a descriptor not granted, or no engine
# that runs
POLLED = [
    'receiving starts at 20000000, polling on',
    'polling is on for this place, by RXNDAR: receiving looks again at the next frame',
    'polling is on for this place, by the next word of descriptor 3 of the ring: receiving looks again at the next frame',
    'polling is on for this place, by the next word of descriptor 2 of the ring: receiving looks again at the next frame',
    'receiving stops',
    'receiving starts at 20000030, polling off',
    'polling is off for this place, by RXNDAR: receiving stops',
    'receiving is stopped since line 169',
    'receiving starts at 20000030, polling on',
    'without polling: the next word of descriptor 1 of the ring',
    'polling is off for this place, by the next word of descriptor 1 of the ring: receiving stops',
    'receiving starts at 20000010, polling on',
    'sending was not started yet',
    'sending starts at 20002000, polling on',
    'polling is on for this place, by TXNDAR: sending looks again at the next send',
    'sending is stopped since line 230',
    'sending is stopped since line 230',
    'sending starts at 20002020, polling off',
    'polling is off for this place, by TXNDAR: sending stops',
    'sending is stopped since line 242',
]
# what it says of interrupts: those that are taken and ended, and what is looked at between
INTERRUPTED = [
    "taken: VIC1.0 (UART0) without a slot, by VIC1's default vector",
    'by slot 0, above VIC1.0 (UART0) in service',
    'taken: VIC0.11 (ENET) by slot 0, over VIC1.0 (UART0)',
    'ended: VIC0.11 (ENET); in service again: VIC1.0 (UART0)',
    'ended: VIC1.0 (UART0); nothing in service',
]

# what it says of ticks, and of the counters at the end: the frames of the totals
TIMED_OUT = [
    'sending starts at 20002020, polling off',
    'as counted from the answers since the new bench on line 7',
    'the 3rd tick in a row without a send, TXTOR is 2',
    'the tick count is cleared, was 1',
    'not counted: sending is stopped since line 292',
    'as counted from the answers since the new bench on line 7',
]
LAST = [
    'device report', 'frames delivered 17 17', 'frames lost 5 5', 'frames sent 4 4', 'tick count 0 0',
    'The counters on line 306 agree with the answers since the new bench on line 7.',
]

# ---- short scripts: each line with its answer, and what the report has to say of it

RESULT = '02000000000102000000001188b5' + b'1042;41,7\n'.hex() + '00' * 36
FIRST, SECOND = '00460000400000001100000000000100', '00460000400000000100000000000000'
# a part of a day, before which nothing is known; in an order that the engines allow
LINES = [
    ('lend 60', 'lend', 'lent from now on: 60 bytes'),
    ('read 8', 'read 0 00008020', 'ISR (interrupt status) is 00008020: RX_CURR_DONE, PACKET_LOST'),
    ('read 8', 'read 0 92cf82ef', ': TX_CURR_DONE, MAC-802.3_INT, TX_MERR_INT, TX_DONE, TX_NEXT, TX_TO, TX_ENTRY, TX_FULL, '
     'TX_EMPTY, RX_CURR_DONE, RX_MERR_INT, RX_DONE, RX_NEXT, PACKET_LOST, RX_TO, RX_ENTRY, RX_FULL, RX_EMPTY'),
    ('read 08', 'read 0 00000000', 'is 00000000: no bit set'),
    ('read 4', 'read 0 00000080', 'IER (interrupt enable) is 00000080: RX_DONE'),
    ('read 408', 'read 0 00000002', 'MAL (MAC address low) is 00000002: the station address begins 02-00-00-00'),
    ('read 404', 'read 0 00000100', 'MAH (MAC address high) is 00000100: the station address ends 00-01'),
    ('read 40c', 'read 0 ffffffff', 'MCHA (multicast hash high) is ffffffff: all bits set'),
    ('read 410', 'read 0 80000009', 'MCLA (multicast hash low) is 80000009: bits 31, 3, 0 set'),
    ('read c', 'read 2 00000000', '2 refused: register not modelled'),
    ('read 1c', 'read 0 20000001', 'RXNDAR (receive next descriptor) is 20000001: address 20000000, polling on'),
    ('read 3c', 'read 0 20000010', 'TXNDAR (send next descriptor) is 20000010: address 20000010, polling off'),
    ('write 8 20', 'write 0', 'ISR (interrupt status): clears PACKET_LOST'),
    ('write 4 80000000', 'write 0', 'IER (interrupt enable): enables TX_CURR_DONE'),
    ('write 400 800a0004', 'write 0', 'MCR (MAC control): RA, AFM=5, RE; receive-all on, all-multicast on'),
    ('write 400 00020000', 'write 0', 'AFM=1; receive-all off, multicast by hash'),
    *((f'write 400 {mode << 17:x}', 'write 0', f'AFM={mode}; receive-all off, all-multicast off') for mode in (2, 3, 4, 6, 7)),
    ('write 40c 40000000', 'write 0', 'MCHA (multicast hash high): bit 30 set'),
    ('write 410 0', 'write 0', 'MCLA (multicast hash low): no bit set'),
    ('line', 'line 0', '0: the interrupt line is low'),
    ('line', 'line 1', '1: the interrupt line is high'),
    ('grant 100', 'grant 0', '0 done: descriptor at 00000100 handed to the DMA'),
    ('grant 102', 'grant 13', '13 refused: descriptor not at a multiple of 4 or not all in the window'),
    ('grant 100', 'grant 14', '14 refused: descriptor already granted'),
    (f'frame {RESULT}00000000', 'frame 0', 'frame (64 bytes, to 02-00-00-00-00-01, 88B5 "1042;41,7") -> 0 delivered'),
    (f'frame {RESULT}00000000', 'frame 8', '8 lost: descriptor not granted; PACKET_LOST is set'),
    ('frame -', 'frame 4', 'frame (0 bytes) -> 4 refused: frame under 64 or over 1,518 bytes'),
    ('frame 00', 'frame 5', 'frame (1 byte) -> 5 refused: frame check sequence wrong'),
    ('frame 0000', 'frame 6', '6 refused: address not for this station'),
    ('frame 0000', 'frame 7', '7 refused: chain fault; that engine stops'),
    ('frame 0000', 'frame 11', "11 refused: lent memory not of the window's length"),
    (f'frame {RESULT}00000000', 'frame 3', '3 refused: that engine is not running'),
    ('write 1c 103', 'write 0', 'RXNDAR (receive next descriptor): address 00000100, polling on'),
    ('write 3c 100', 'write 15', '15 refused: next-descriptor register written while its engine runs'),
    ('send 1518', f'send 0 {RESULT}00000000', '0 done: sent 64 bytes, to 02-00-00-00-00-01, 88B5 "1042;41,7"'),
    ('send 1517', 'send 9 -', '9 refused: output shorter than 1,518 bytes'),
    ('send 1518', 'send 8 -', '8 refused: descriptor not granted'),
    ('run 4097 0', 'run 10 0 0 -', '0 steps, 0 frames sent, 0 bytes; last answer 10 refused: step allowance over 4,096'),
    ('run 1 1518', f'run 0 1 64 {RESULT}00000000', '1 step, 1 frame sent, 64 bytes; last answer 0 done'),
    ('run 2 1518', f'run 9 2 64 {RESULT}00000000', '2 steps, 1 frame sent, 64 bytes; last answer 9 refused'),
    ('send 1518', 'send 12 -', '12 refused: send length under 14 or over 1,514; sending stops'),
    ('write 10 5', 'write 0', 'RXSTR (receive start): START_FETCH, DMA_EN'),
    ('write 10 4', 'write 0', 'RXSTR (receive start): START_FETCH'),
    ('write 30 1', 'write 0', 'TXSTR (send start): DMA_EN'),
    ('show 100', f'show 0 {RESULT}', 'descriptor at 00000100 holds 60 bytes, to 02-00-00-00-00-01, 88B5 "1042;41,7"'),
    ('show 100', 'show 13 -', '13 refused: descriptor not at a multiple of 4 or not all in the window, or no frame to show'),
    ('ring 2 100', 'ring no', 'no: not a sound ring of 2 descriptors'),
    (f'poke 0 {FIRST}', 'poke ok', 'a descriptor, count 1536, start 00000040, next 00000010 with polling, granted'),
    (f'poke 0 {FIRST[:16]}12000000{FIRST[24:]}', 'poke ok', 'start 00000040, next 00000010 without polling, granted'),
    (f'poke 0 0006{FIRST[4:]}', 'poke ok', 'a descriptor, count 1536, start 00000040, no next, granted'),
    ('poke c 00000100', 'poke ok', 'packet status of the descriptor at 00000000, granted'),
    ('poke 8 21000000', 'poke ok', 'next word of the descriptor at 00000000, 00000020 with polling'),
    ('poke 8 20000000', 'poke ok', 'next word of the descriptor at 00000000, 00000020 without polling'),
    ('poke 0 00', 'poke outside', 'outside the window: nothing is written'),
    ('peek 0 3', 'peek 343100', '-> "41"'),
    ('peek 0 2', 'peek ff00', '-> ff00'),
    ('peek 0 2', 'peek outside', '-> outside the window'),
    ('peek c 3', 'peek 400000', '-> "@"'),
    ('check', 'check cbf43926', "cbf43926: CRC-32 of the window's bytes"),
    ('state', 'state 0 00000100 0 00000000', 'receiving is stopped, place 00000100; sending is stopped, place 00000000'),
    ('write 10 5', 'write 0', 'START_FETCH, DMA_EN'),
    ('state', 'state 1 00000100 0 00000000', 'receiving runs, place 00000100, polling on; sending is stopped, place 00000000'),
    ('new 100 64', 'new 0', '0 done: a window of 64 bytes from 00000100 on, all zero'),
    ('new 100 60', 'new 1', '1 refused: window not allowed; the reset state, no window'),
]

# ---- bursts: a script with its answers, and all that the report has to say of it before the totals

STORE = f'{RESULT}00000000' * 2
NAMED = 'to 02-00-00-00-00-01, 88B5 "1042;41,7"'
BURSTS = [
    ('grant 100', 'grant 0', ['1 grant 100 -> 0 done: descriptor at 00000100 handed to the DMA']),
    ('grant 110', 'grant 0', ['2 grant 110 -> 0 done: descriptor at 00000110 handed to the DMA']),
    # the second pair ends where the store ends, the third one byte behind; no bytes at the end are a frame, behind it none
    (f'burst 7 {STORE} 0 64 64 64 65 64 0 63 64 64 128 0 129 0', 'burst 0 0 0 16 4 8 4 16', [
        '3 burst (7 pairs, a store of 128 bytes, room for 7 answers) -> 0 done: 2 delivered, 1 lost, 2 refused, 2 outside',
        f'pair 1: frame (64 bytes, {NAMED}) -> 0 delivered',
        f'pair 2: frame (64 bytes, {NAMED}) -> 0 delivered',
        "pair 3: 64 bytes from 65 on -> 16 outside: pair passes the store's end",
        f'pair 4: frame (63 bytes, {NAMED}) -> 4 refused: frame under 64 or over 1,518 bytes',
        f'pair 5: frame (64 bytes, {NAMED}) -> 8 lost: descriptor not granted; PACKET_LOST is set',
        'pair 6: frame (0 bytes) -> 4 refused: frame under 64 or over 1,518 bytes',
        "pair 7: 0 bytes from 129 on -> 16 outside: pair passes the store's end",
    ]),
    ('burst 1 0a 0 1 0 1', 'burst 16 99', ['4 burst (2 pairs, a store of 1 byte, room for 1 answer) '
                                           '-> 16 refused: more than 64 pairs, or an answer list of another length']),
    (f'burst 65 -{" 0 0" * 65}', f'burst 16{" 99" * 65}', [
        '5 burst (65 pairs, a store of 0 bytes, room for 65 answers) '
        '-> 16 refused: more than 64 pairs, or an answer list of another length']),
    ('burst 0 -', 'burst 0', ['6 burst (0 pairs, a store of 0 bytes, room for 0 answers) '
                              '-> 0 done: 0 delivered, 0 lost, 0 refused, 0 outside']),
]
BURST_TOTALS = ['calls 6', 'grants made 2', 'bursts made 2 7 pairs, 2 outside the store', 'bursts refused 2',
                'frames delivered 2 128 bytes', 'frames lost 1 64 bytes', 'frames refused 2',
                '4 2 frame under 64 or over 1,518 bytes']
# what the picture shows, in its order: kind, line and number shown; a refused call has a sign of its own
BURST_SIGNS = [('grants', 1, ''), ('grants', 2, ''), ('delivered', 3, ''), ('delivered', 3, ''), ('refused', 3, '16'),
               ('refused', 3, '4'), ('lost', 3, ''), ('refused', 3, '4'), ('refused', 3, '16'), ('refused', 4, '16'),
               ('refused', 5, '16')]

# ---- hash mode: MAC control as it was written last, or 'new', a destination, and whether and how its bit is told

TO = [
    ('00020000', '0180c2000001', '01-80-C2-00-00-01 (MCLA bit 3)'),
    ('7ff3ffff', '01005e000001', '01-00-5E-00-00-01 (MCLA bit 31)'),
    ('00020000', '333300000001', '33-33-00-00-00-01 (MCHA bit 30)'),
    ('00020000', '010000000000', '01-00-00-00-00-00 (MCHA bit 7)'),
    # broadcast and stations are not asked for by the hash, nor is anything with receive-all or in another mode
    ('00020000', 'ffffffffffff', 'FF-FF-FF-FF-FF-FF'),
    ('00020000', '020000000001', '02-00-00-00-00-01'),
    ('80020000', '0180c2000001', '01-80-C2-00-00-01'),
    *((f'{mode << 17:x}', '0180c2000001', '01-80-C2-00-00-01') for mode in (0, 2, 3, 4, 5, 6, 7)),
    ('new', '0180c2000001', '01-80-C2-00-00-01'),
]

# ---- why a frame was taken, and the packet status of its delivery: the rules are those of document 01, the first that applies

# MAC control, multicast hash high and low, a destination, and the reason, '' for none; the station is 02-00-00-00-00-01
WHY = [
    ('0', '0', '0', '020000000001', 'own address'),
    ('0', '0', '0', '020000000002', ''),
    ('0', '0', '0', '010000000002', ''),
    ('0', '0', '0', 'ffffffffffff', 'broadcast'),
    ('0', '0', '0', 'fffffffffffe', ''),
    ('a0000', '0', '0', '0180c2000001', 'group'),
    ('a0000', '0', '0', 'ffffffffffff', 'broadcast'),
    ('a0000', '0', '0', '020000000001', 'own address'),
    ('20000', '0', '8', '0180c2000001', 'group'),
    ('20000', 'ffffffff', 'fffffff7', '0180c2000001', ''),
    ('20000', '40000000', '0', '333300000001', 'group'),
    ('20000', '0', '40000000', '333300000001', ''),
    ('20000', '0', '0', 'ffffffffffff', 'broadcast'),
    ('20000', 'ffffffff', 'ffffffff', '020000000002', ''),
    ('80000000', '0', '0', '020000000001', 'receive-all'),
    ('80000000', '0', '0', '020000000002', 'receive-all'),
    ('80000000', '0', '0', 'ffffffffffff', 'receive-all'),
    ('800a0000', '0', '0', '0180c2000001', 'receive-all'),
    ('80020000', '0', '8', '0180c2000001', 'receive-all'),
]
# the same with other lines before the frame; what a register holds at reset, and what is not written, counts
STATIONS = [
    # the upper half of MAC address high is reserved
    (['write 404 ffff0100', 'write 408 2'], '020000000001', 'own address'),
    # one register of the two at reset
    (['write 408 2'], '02000000ffff', 'own address'),
    (['write 404 100'], '000000000001', ''),
    # a station that is a group, and one that is everybody
    (['write 404 100', 'write 408 3'], '030000000001', ''),
    (['write 404 100', 'write 408 3', 'write 400 a0000'], '030000000001', 'group'),
    ([], 'ffffffffffff', 'broadcast'),
    # a write that is refused, and a new bench that is not
    (['write 404 100', 'write 408 2', ('write 400 80000000', 'write 2')], '020000000002', ''),
    (['write 400 80000000', ('new 0 60', 'new 1')], '020000000002', ''),
]
# the packet status of a frame of 64 bytes by its reason, byte by byte: bit 28 for broadcast, bit 27 for group
PACKET_STATUS = {'own address': '40000000', 'broadcast': '40000010', 'group': '40000008', 'receive-all': '40000000'}
TOLD = {'40000000': 'returned, length 64', '40000010': 'returned, length 64, broadcast', '40000008': 'returned, length 64, multicast'}
# words that no delivery of 64 bytes leaves
NO_STATUS = ['40000018', '40000100', '3f000000', '00000000', '40000001']


def wording_of(number):
    """How an answer that is no delivery begins."""
    return f'-> {number} {"lost" if number == 8 else "refused"}: '


def frame_to(to):
    return to + RESULT[12:] + '00000000'


def day(*lines):
    """The script and the output of some lines, each with its answer or with one that says done."""
    pairs = [line if isinstance(line, tuple) else (line, f'{line.split()[0]} 0') for line in lines]
    return [''.join(f'{part}\n' for part in column) for column in zip(*pairs)]


def filters(control, high, low):
    """The lines that make a bench with these filter registers."""
    return ['new 0 4096', 'write 408 2', 'write 404 100', f'write 400 {control}', f'write 40c {high}', f'write 410 {low}']


# name, script, output, what the report has to say; each ends with status 1
FAULTS = [
    ('output ends early', 'line\nline\n', 'line 0\n', 'line 2: the output ends before the answer to "line"'),
    ('no output', 'line\n', '', 'line 1: the output ends before the answer to "line"'),
    ('output goes on', '# nothing\n', 'line 0\n', 'the output goes on after the last call; lines left: 1'),
    ('a line not taken', '\nlin\nline\n', 'error 2\nline 1\n', 'line 2: the console did not take "lin"'),
    ('an unknown call', 'tock\n', 'tock 0\n', 'line 1: "tock" is no call known here, yet it was answered "tock 0"'),
    ('a call of another form', 'grant\n', 'grant 0\n', '"grant" is no call known here'),
    ('another answer', 'grant 0\n', 'frame 0\n', 'line 1: "frame 0" does not answer "grant 0"'),
    ('an error elsewhere', 'grant 0\n', 'error 2\n', '"error 2" does not answer "grant 0"'),
    ('an answer cut', 'read 8\n', 'read 0 0000\n', '"read 0 0000" does not answer "read 8"'),
    ('no numbered result', 'grant 0\n', 'grant 17\n', '17 is no numbered result'),
    ("a burst's number", 'grant 0\n', 'grant 16\n', '16 answers nothing but a burst'),
    ('bytes cut', 'run 1 1518\n', 'run 0 1 64 00\n', '64 bytes promised, 1 written'),
    ('a peek cut', 'peek 0 4\n', 'peek 40\n', '4 bytes asked for, 1 written'),
    ('a peek of nothing', 'peek 0 4\n', 'peek -\n', '4 bytes asked for, 0 written'),
    ('a peek too long', 'peek 0 0\n', 'peek 40\n', '0 bytes asked for, 1 written'),
    ('an answer too few', 'burst 2 - 0 0 0 0\n', 'burst 0 4\n',
     'line 1, answer to "burst 2 - 0 0 0 0": 2 answers promised, 1 written'),
    ('an answer too many', 'burst 1 - 0 0\n', 'burst 0 4 4\n', '1 answer promised, 2 written'),
    ('no answers', 'burst 1 - 0 0\n', 'burst\n', '"burst" does not answer "burst 1 - 0 0"'),
    ('a start without its length', 'burst 1 - 0\n', 'burst 0 4\n', '"burst 1 - 0" is no call known here'),
    ('a burst done that has other lengths', 'burst 1 - 0 0 0 0\n', 'burst 0 4\n',
     '0, yet it has 2 pairs and room for 1 answer'),
    ('a burst done that is too long', f'burst 65 -{" 0 0" * 65}\n', f'burst 0{" 4" * 65}\n',
     '0, yet it has 65 pairs and room for 65 answers'),
    ('a burst refused that is not too long', f'burst 64 -{" 0 0" * 64}\n', f'burst 16{" 99" * 64}\n',
     '16, yet it has 64 pairs and room for 64 answers'),
    ('no answer of a burst', 'burst 0 -\n', 'burst 8\n', '8, yet it has 0 pairs and room for 0 answers'),
    ('a refused burst with an answer', 'burst 2 - 0 0\n', 'burst 16 99 4\n', 'refused, yet an answer is no longer 99'),
    ('a pair without an answer', 'burst 2 - 0 0 0 0\n', 'burst 0 4 99\n', 'pair 2: 99 is no numbered result'),
    ('a pair outside delivered', 'burst 1 00 1 1\n', 'burst 0 0\n', 'pair 1: 0, yet the pair passes the end of the store'),
    ('a pair inside not received', 'burst 2 00 0 1 1 0\n', 'burst 0 4 16\n',
     'pair 2: 16, yet the pair does not pass the end of the store'),
    ('no text', 'line\n', b'\xff\x00\n', 'does not answer "line"'),
    ('more steps than allowed', 'run 2 1518\n', 'run 3 3 0 -\n', '3 steps, yet it may make no more than 2'),
    ('more steps than there can be', 'run 9999 1518\n', 'run 3 4097 0 -\n', '4097 steps, yet it may make no more than 4096'),
]


class Tests:
    def __init__(self, folder):
        self.folder = pathlib.Path(folder)
        self.passed = self.failed = 0

    def expect(self, title, right, seen=''):
        if right:
            self.passed += 1
        else:
            self.failed += 1
            print(f'FAILED: {title}: {seen}')

    def report(self, script, output, *words):
        """The report's status and text."""
        for name, content in [('script', script), ('output', output)]:
            (self.folder / name).write_bytes(content if isinstance(content, bytes) else content.encode('utf-8'))
        done = subprocess.run([sys.executable, REPORT, self.folder / 'script', self.folder / 'output', *words],
                              capture_output=True, encoding='utf-8', timeout=60, env=os.environ | {'PYTHONIOENCODING': 'utf-8'})
        return done.returncode, done.stdout + done.stderr

    def lines(self):
        script, output, _ = (''.join(f'{part}\n' for part in column) for column in zip(*LINES))
        status, text = self.report(script, output, '--svg', self.folder / 'lines.svg')
        self.expect('all lines', status == 0, text)
        told = calls(text)
        for at, (line, answer, wanted) in enumerate(LINES, 1):
            self.expect(f'{line}, {answer}', wanted in told.get(at, [''])[0], told.get(at))
        for wanted in ['grants made 1', 'frames delivered 1 64 bytes', 'frames lost 1 64 bytes', 'frames refused 6',
                       'frames sent 3 192 bytes']:
            self.expect(f'all lines: {wanted}', wanted in rows(text), text)

    def ring(self):
        """Descriptors are named by their place in the ring, which is that of its next words."""
        status, text = self.report(f'poke 0 {FIRST}\npoke 10 {SECOND}\nring 2 10\ngrant 0\nnew 0 64\ngrant 0\n',
                                   'poke ok\npoke ok\nring yes\ngrant 0\nnew 0\ngrant 0\n')
        grants = [line.split(' -> ')[1] for line in text.splitlines() if 'grant ' in line]
        self.expect('the ring', status == 0 and grants == ['0 done: descriptor 2 of the ring handed to the DMA',
                                                           '0 done: descriptor at 00000000 handed to the DMA'], text)

    def polling(self):
        """What becomes of the engines is told under each call, and why; where it is not known, nothing is."""
        for name, lines in polling.DAYS.items():
            script, output = polling.texts(lines)
            status, text = self.report(script, output)
            told = calls(text)
            self.expect(name, status == 0 and len(told) == len(lines), text)
            for at, (line, answer, *wanted) in enumerate(lines, 1):
                given = [row for row in told.get(at, [''])[1:] if not row.startswith('pair ')]
                self.expect(f'{name}, line {at}: {line[:40]}, {answer[:40]}', given == wanted, given)
        for line, answer, known in polling.BETWEEN:
            _, text = self.report(*polling.around(line, answer))
            given = calls(text).get(5, [''])[1:]
            self.expect(f'behind {line}, {answer}', given == [polling.looks_again('RXNDAR')] * known, text)

    def interrupts(self, program):
        """Interrupts taken and ended are told under each call and counted, and what is not; the answers are the console's."""
        for name, lines in [*interrupts.DAYS.items(), ("ENET's line in doubt", interrupts.DOUBT + interrupts.DOUBT_TWICE)]:
            script, output = interrupts.texts(lines)
            done = subprocess.run([program], input=script.encode(), capture_output=True, timeout=60)
            self.expect(f'{name}: answers of the console', done.stdout.decode() == output, done.stdout)
        picture = self.folder / 'interrupts.svg'
        for name, lines in interrupts.DAYS.items():
            status, text = self.report(*interrupts.texts(lines), '--svg', picture)
            self.expect(name, status == 0, text)
            self.told_under(name, lines, text)
            # the sign of one that is taken or ended has no number, also where there is room for it
            wanted = [(words[:5], at, '') for at, (_, _, *under) in enumerate(lines, 1)
                      for words in under if re.match('taken:|ended:', words)]
            given = [(sign.kind, sign.line, sign.number) for sign in signs(ElementTree.parse(picture).getroot())]
            self.expect(f'{name}: signs', [sign for sign in given if sign[0] in ('taken', 'ended')] == wanted and
                        all(kind in ('taken', 'ended', 'delivered') for kind, _, _ in given), given)
            for wanted in interrupts.TOTALS.get(name, []):
                self.expect(f'{name}: {wanted}', wanted in rows(text), text)
        status, text = self.report(*interrupts.texts(interrupts.WORDS))
        self.expect('lines about interrupts', status == 0, text)
        for at, (line, answer, wanted) in enumerate(interrupts.WORDS, 1):
            given = calls(text).get(at, [''])
            self.expect(f'{line}, {answer}', given[0].endswith(wanted), given)
            if line in interrupts.NOT_KNOWN:
                self.expect(f'under {line}', given[1:] == [interrupts.NOT_KNOWN[line]], given)
        for wanted in ['interrupts taken 0', 'interrupts ended 0', 'still in service 0 not known',
                       'not known 1 VIC0_VAR read, may have taken an interrupt']:
            self.expect(f'lines about interrupts: {wanted}', wanted in rows(text), text)

    def told_under(self, name, lines, text):
        """Under each line stands what is wanted there, and nothing else."""
        told = calls(text)
        for at, (line, answer, *wanted) in enumerate(lines, 1):
            given = told.get(at, ['', 'not told'])[1:]
            self.expect(f'{name}, line {at}: {line[:40]}, {answer[:40]}', given == wanted, given)

    def wrong_interrupts(self):
        """An answer that the rules do not allow is one fault, and behind it nothing is claimed; where ENET's line is in doubt,
        what either level allows is none."""
        days = [interrupts.texts([*before, wrong, *interrupts.ANYTHING]) for _, before, wrong, _ in interrupts.WRONG]
        for (name, before, wrong, wanted), said in zip(interrupts.WRONG, self.told(days)):
            faults = [at for at, words in enumerate(said) if not words or words.startswith('FAULT ')]
            self.expect(name, faults == [len(before)] and f'FAULT "{wrong[0]}": ' in said[len(before)]
                        and wanted in said[len(before)], said[len(before):])
        days = [interrupts.texts([*interrupts.DOUBT, *behind]) for behind, _ in interrupts.UNSURE.values()]
        for (name, (behind, wrong)), said in zip(interrupts.UNSURE.items(), self.told_rows(days)):
            given = said[len(interrupts.DOUBT):]
            self.expect(f'in doubt: {name}: the last', given[-1][0].startswith('FAULT ') == wrong, given)
            for (line, answer, *wanted), (words, *under) in zip(behind[:len(behind) - wrong], given):
                self.expect(f'in doubt: {name}: {line}, {answer}', words.startswith(f'{line.split()[0]} ') and under == wanted, (words, under))
        for name, before, faults in interrupts.SILENT:
            status, text = self.report(*interrupts.texts([*before, *interrupts.ANYTHING]))
            self.expect(f'silent {name}', text.count('FAULT') == faults and status == bool(faults), text)
        status, text = self.report(*interrupts.texts([*interrupts.NOT_TAKEN, interrupts.irq('0 11 0000a000')]))
        self.expect('known behind a line that was not taken',
                    text.count('FAULT') == 2 and ', yet by the calls before' in text, text)

    def headings(self):
        """Comments are headings, whatever they hold; those with calls are numbered."""
        picture = self.folder / 'headings.svg'
        status, text = self.report('# Pr\u00fcfung \x07 & <b>\n\n# First\n# more\nline\n#\n', 'line 0\n', '--svg', picture)
        wanted = ['Pr\u00fcfung \\x07 & <b>', '1. First', 'more']
        self.expect('headings', status == 0 and set(wanted) <= set(rows(text)), text)
        titles = [element.text for element in ElementTree.parse(picture).getroot().iter(f'{SVG}title')]
        self.expect("the picture's title", titles[:1] == wanted[:1], titles)

    def bursts(self):
        """A burst is told pair by pair, counted frame by frame, and drawn so within a box."""
        script, output = polling.texts(BURSTS)
        picture = self.folder / 'bursts.svg'
        status, text = self.report(script, output, '--svg', picture)
        said, sums = re.sub(r'\n +->', ' ->', text).split('\nWhat the day comes to\n')
        wanted = [told for line in BURSTS for told in line[2]]
        self.expect('bursts', status == 0 and [row for row in rows(said) if row] == wanted, text)
        for wanted in BURST_TOTALS:
            self.expect(f'bursts: {wanted}', wanted in rows(sums), text)
        root = ElementTree.parse(picture).getroot()
        given = [(sign.kind, sign.line, sign.number) for sign in signs(root)]
        self.expect('signs of bursts', given == BURST_SIGNS, given)
        # each stands in a column of its own, also those of one call
        places = [sign.x for sign in signs(root)]
        self.expect('places of bursts', places == sorted(set(places)), places)
        given = [element.text for element in root.iter(f'{SVG}text')]
        self.expect('bursts in the head', any('2 bursts made, 2 refused, 2 pairs outside' in text for text in given), given)
        given = [[sign.title for sign in box] for box in boxes(root)]
        self.expect('the box of a burst', given == [[f'line 3: {told}' for told in BURSTS[2][2][1:]]], given)
        self.expect('fill in bursts', fill(root, 2) == [0, 1, 2, 1, 0], fill(root, 2))

    def hashes(self):
        """The bit of a frame is told exactly where the address rule asks for it, of a pair too."""
        script, output, wanted = '', '', []
        for control, to, told in TO:
            data = to + RESULT[12:] + '00000000'
            script += 'write 400 20000\n' + ('new 0 64\n' if control == 'new' else f'write 400 {control}\n') + 'write 10 5\n'
            output += 'write 0\n' + ('new 0\n' if control == 'new' else 'write 0\n') + 'write 0\n'
            script += f'frame {data}\nburst 1 {data} 0 64\nshow 0\n'
            output += f'frame 6\nburst 0 6\nshow 0 {data[:-8]}\n'
            # what is shown was taken before
            wanted += [told, told, told.split(' ')[0]]
        status, text = self.report(script, output)
        given = re.findall(r', to (.*), 88B5', text)
        self.expect('bits of the hash', status == 0 and given == wanted, text)

    def told_rows(self, days):
        """What one report says of the lines of several days, each of which begins with a new bench: the rows of each, a fault
        as one."""
        script, output = (''.join(parts) for parts in zip(*days))
        _, text = self.report(script, output)
        said = calls(text)
        faults = re.findall(r'^FAULT  line (\d+), answer to (.*)$', text, re.MULTILINE)
        said |= {int(at): [f'FAULT {words}'] for at, words in faults}
        lines = iter(range(1, script.count('\n') + 1))
        return [[said.get(next(lines), ['']) for _ in script.splitlines()] for script, _ in days]

    def told(self, days):
        """The same, the rows of each line as one."""
        return [[' '.join(lines) for lines in said] for said in self.told_rows(days)]

    def reasons(self):
        """The reason of a delivered frame is told, of a pair too, and an answer that the registers do not allow is a fault."""
        cases = [(filters(*registers), to, reason) for *registers, to, reason in WHY]
        cases += [(['new 0 4096', *lines], to, reason) for lines, to, reason in STATIONS]
        cases = [(*case, number) for case in cases for number in (0, 6, 7, 8)]
        # the chain ends at its first descriptor, so receiving is started anew for the burst
        days = [day(*lines, 'write 10 5', (f'frame {frame_to(to)}', f'frame {number}'),
                    'write 10 5', (f'burst 1 {frame_to(to)} 0 64', f'burst 0 {number}')) for lines, to, _, number in cases]
        for (lines, to, reason, number), said in zip(cases, self.told(days)):
            frame, burst = said[-3], said[-1]
            right = (number == 6) == (reason == '')
            wanted = f'6, yet the frame is taken: {reason}' if reason else f'{number}, yet no address rule takes the frame'
            if not right:
                # behind a fault the registers are not known
                self.expect(f'{lines[1:]}, to {to}: {number}', frame == f'FAULT "frame {frame_to(to)[:34]}..": {wanted}'
                            and burst and 'FAULT' not in burst and 'delivered: ' not in burst, said)
                continue
            ends = f'-> 0 delivered: {reason}' if number == 0 else wording_of(number)
            self.expect(f'{lines[1:]}, to {to}: {number}', frame.startswith('frame (') and ends in frame and ends in burst
                        and (number == 0) == ('delivered: ' in frame), said)

    def known(self):
        """A pair is named where it contradicts; behind a fault the registers are not known until all are written again."""
        lines, frame = filters('0', '0', '0'), frame_to('020000000002')
        status, text = self.report(*day(*lines, 'write 10 5', (f'burst 2 {frame} 0 63 0 64', 'burst 0 4 0')))
        self.expect('a pair for another station', status == 1 and 'pair 2: 0, yet no address rule takes the frame' in text, text)
        for left_out in [None, *lines[1:]]:
            again = [line for line in lines[1:] if line != left_out]
            _, text = self.report(*day(*lines, ('peek 0 4', 'peek 00'), *again, f'frame {frame_to("020000000001")}'))
            given = re.findall(r'-> 0 delivered(.*)', text)
            self.expect(f'registers written again but {left_out}', given == ['' if left_out else ': own address'], text)
            self.expect(f'frames told without a reason: {left_out}', ('reason not known 1' in rows(text)) == bool(left_out), text)

    def statuses(self):
        """The packet status of a delivered frame is told where it is looked at, and must be its length and its reason's bit."""
        cases = [(registers, to, PACKET_STATUS[reason], word) for *registers, to, reason in WHY if reason for word in [*TOLD, *NO_STATUS]]
        days = [day(*filters(*registers), (f'poke 0 {FIRST}', 'poke ok'), 'write 10 5', f'frame {frame_to(to)}',
                    ('peek c 4', f'peek {word}')) for registers, to, _, word in cases]
        for (registers, to, right, word), said in zip(cases, self.told(days)):
            wanted = (f'peek c 4 -> {word}: packet status of the descriptor at 00000000, {TOLD[word]}' if word == right else
                      f'FAULT "peek c 4": {word}, yet the frame that was delivered there leaves {right}, {TOLD[right]}')
            self.expect(f'{registers}, to {to}: {word}', said[-1] == wanted, said)
        # where no delivery wrote the word, or something was written over it, no more is said than who has the descriptor
        lines = [*filters('0', '0', '0'), (f'poke 0 {FIRST}', 'poke ok'), 'write 10 5']
        delivered = [*lines, f'frame {frame_to("ffffffffffff")}']
        cases = [
            ('no delivery', lines, '40000010', 'returned'),
            ('a grant', [*delivered, 'grant 0'], '00000100', 'granted'),
            ('a poke', [*delivered, ('poke f 10', 'poke ok')], '40000010', 'returned'),
            ('a poke beside it', [*delivered, ('poke b 00', 'poke ok'), ('poke 10 00', 'poke ok')], '40000010',
             'returned, length 64, broadcast'),
        ]
        said, = self.told([day(*delivered, ('peek c 2', 'peek 4000'))])
        self.expect('a part of a status word', said[-1] == 'peek c 2 -> "@"', said)
        days = [day(*before, ('peek c 4', f'peek {word}')) for _, before, word, _ in cases]
        for (title, _, word, wanted), said in zip(cases, self.told(days)):
            self.expect(f'a status word behind {title}',
                        said[-1] == f'peek c 4 -> {word}: packet status of the descriptor at 00000000, {wanted}', said)

    def faults(self):
        for name, script, output, wanted in FAULTS + polling.FAULTS + interrupts.FAULTS + ticks.FAULTS:
            status, text = self.report(script, output, '--svg', self.folder / 'fault.svg')
            self.expect(name, status == 1 and wanted in text and 'not whole' in text, text)
        status, text = self.report('line\n', 'line 0\n', '--svg', self.folder / 'no' / 'such.svg')
        self.expect('a picture that cannot be written', status == 1 and 'Traceback' not in text, text)
        status, text = self.report('', '', '--svg', self.folder / 'empty.svg')
        self.expect('an empty day', status == 0 and 'calls 0' in rows(text), text)

    def ticks(self, program):
        """Ticks are told with what they do to the count, and why, and drawn where they set TX_TO; the answers are the console's."""
        picture = self.folder / 'ticks.svg'
        for name, lines in [*ticks.DAYS.items(), *ticks.UNSURE.items()]:
            script, output = ticks.texts(lines)
            if name in ticks.DAYS:
                done = subprocess.run([program], input=script.encode(), capture_output=True, timeout=60)
                self.expect(f'{name}: answers of the console', done.stdout.decode() == output, done.stdout)
            status, text = self.report(script, output, '--svg', picture)
            faults = lines.count(ticks.FAULT)
            self.expect(name, status == (1 if faults else 0) and text.count('FAULT') == faults, text)
            told = calls(text)
            for at, (line, answer, wanted, *under) in enumerate(lines, 1):
                given = told.get(at, ['', 'not told'])
                self.expect(f'{name}, line {at}: {line[:40]}, {answer[:40]}',
                            line == ticks.FAULT[0] and at not in told or wanted in ('', given[0]) and under ==
                            [row for row in given[1:] if not row.startswith('pair ')], given)
            self.time_outs(name, lines, ElementTree.parse(picture).getroot())
            for wanted in (ticks.TOTALS | ticks.UNSURE_TOTALS).get(name, []):
                self.expect(f'{name}: {wanted}', wanted in rows(text), text)
        status, text = self.report(*ticks.texts(ticks.WORDS))
        self.expect('lines about ticks', status == 0, text)
        for at, (line, answer, wanted) in enumerate(ticks.WORDS, 1):
            given = calls(text).get(at, [''])
            self.expect(f'{line}, {answer}', given[0].endswith(wanted), given)

    def time_outs(self, name, lines, root):
        """Each tick that sets TX_TO has a sign, and no other line; the head has how many."""
        wanted = [(at, f'line {at}: {words}; {under[0]}') for at, (_, _, words, *under) in enumerate(lines, 1) if 'TX_TO is set' in words]
        given = [(sign.line, sign.title) for sign in signs(root) if sign.kind == 'TX_TO' and sign.number == '']
        self.expect(f'{name}: signs', given == wanted, given)
        given = [element.text or '' for element in root.iter(f'{SVG}text')]
        head = f'; {len(wanted)} send time-out{"" if len(wanted) == 1 else "s"}'
        self.expect(f'{name}: in the head', any(head in words for words in given) == bool(wanted), given)
        self.expect(f'{name}: in the legend', 'TX_TO set by a tick' in given and 'TX_TO' in given, given)

    def wrong_ticks(self):
        """An answer that the rules do not allow is one fault, and behind it nothing is claimed."""
        days = [ticks.texts([*before, wrong, *ticks.ANYTHING]) for _, before, wrong, _ in ticks.WRONG]
        for (name, before, wrong, wanted), said in zip(ticks.WRONG, self.told(days)):
            faults = [at for at, words in enumerate(said) if not words or words.startswith('FAULT ')]
            at = re.sub(r' since the new bench on line \d+', f' since {ticks.BENCH}', said[len(before)])
            self.expect(name, faults == [len(before)] and f'FAULT "{wrong[0]}": ' in at and wanted in at, said[len(before):])

    def counters(self):
        """The last lines have the device's counters beside the report's own, and say whether they agree."""
        for name, (lines, faults, wanted) in ticks.LAST.items():
            status, text = self.report(*ticks.texts(lines))
            self.expect(f'counters: {name}', status == faults and last(text, faults) == wanted, text)
        # no script comes to a counter's stop, so these numbers are given to the comparison itself
        asked = ('import counting, json, sys; '
                 'print(json.dumps([counting.Asked(1, device, own, 0, {0}).differing() for own, device, _ in json.loads(sys.argv[1])]))')
        done = subprocess.run([sys.executable, '-c', asked, json.dumps(ticks.STOPS)], cwd=REPORT.parent, capture_output=True, timeout=60)
        for (own, device, agree), given in zip(ticks.STOPS, json.loads(done.stdout or '[]'), strict=True):
            self.expect(f'counters {device} of {own}', (given == []) == agree, given)

    def examples(self, program):
        self.example(program)
        script = TICKS.read_bytes()
        done = subprocess.run([program], input=script, capture_output=True, timeout=60)
        status, text = self.report(script, done.stdout)
        self.expect('status of the example of ticks', status == 0, text)
        given = [row for lines in calls(text).values() for row in lines if re.match('tick -|not counted|the .*tick', row)]
        self.expect('the example of ticks', given == ticks.EXAMPLE, given)
        for wanted in ticks.EXAMPLE_TOTALS:
            self.expect(f'the example of ticks: {wanted}', wanted in rows(text), text)
        self.expect('the last lines of the example of ticks', last(text) == ticks.EXAMPLE_LAST, text)

    def example(self, program):
        script = INTERRUPTS.read_bytes()
        done = subprocess.run([program], input=script, capture_output=True, timeout=60)
        status, text = self.report(script, done.stdout)
        self.expect('status of the example of interrupts', status == 0, text)
        given = [row for lines in calls(text).values() for row in lines[1:] if re.match('taken|ended|ends nothing|nothing', row)]
        self.expect('the example of interrupts', given == interrupts.EXAMPLE, given)
        for wanted in interrupts.EXAMPLE_TOTALS:
            self.expect(f'the example of interrupts: {wanted}', wanted in rows(text), text)

    def day(self, program):
        script = DAY.read_text()
        frames = [bytes.fromhex(line.split()[1]) for line in script.splitlines() if line.startswith('frame ')]
        self.expect("the day's frames are what they are meant to be",
                    [refusal(frame, at in TO_ALL) for at, frame in enumerate(frames)]
                    == [0 if number in (3, 8, 11) else number for number in FRAMES])
        pairs = [found(*line.split()[2:]) for line in script.splitlines() if line.startswith('burst ')]
        self.expect("the burst's frames are what they are meant to be",
                    pairs == [[0 if number == 8 else number for number in BURST[1:]]], pairs)
        done = subprocess.run([program], input=script.encode(), capture_output=True, timeout=60)
        answers = done.stdout.decode().splitlines()
        for name, wanted in [('grant', GRANTS), ('frame', FRAMES)]:
            given = [int(answer.split()[1]) for answer in answers if answer.startswith(f'{name} ')]
            self.expect(f'{name}s of the day', given == wanted, given)
        given = [[int(word) for word in answer.split()[1:]] for answer in answers if answer.startswith('burst ')]
        self.expect('the burst of the day', given == [BURST], given)
        picture = self.folder / 'day.svg'
        status, text = self.report(script, done.stdout, '--svg', picture)
        self.expect('status of the day', status == 0, text)
        for wanted in TOTALS:
            self.expect(f'the day: {wanted}', wanted in rows(text), text)
        told = [re.sub(r'^\d+ ', '', row) for row in rows(re.sub(r'\n +->', ' ->', text))]
        given = [row.split(' -> 0 delivered')[1] for row in told if ' -> 0 delivered' in row]
        self.expect('reasons of the day', given == [f': {reason}' for reason in REASONS], given)
        given = [row.split(' -> ')[1] for row in told if row.startswith('peek ') and ': packet status of ' in row]
        self.expect('packet status words of the day', given == STATUSES, given)
        at = told.index(HASHED[0]) if HASHED[0] in told else 0
        self.expect('the hash of the day', told[at:at + len(HASHED)] == HASHED, text)
        given = [row for lines in calls(text).values() for row in lines[1:] if not row.startswith(('pair ', 'sent '))]
        self.expect('polling, interrupts and ticks on the day', given == POLLED + INTERRUPTED + TIMED_OUT, given)
        self.expect('the last lines of the day', last(text.split('\n\npicture: ')[0]) == LAST, text)
        self.expect('results shown', re.findall(r'descriptor \d of the ring holds 60 bytes, .*"(.*)"', text) == SHOWN, text)
        self.picture(ElementTree.parse(picture).getroot())

    def picture(self, root):
        kinds = [sign.kind for sign in signs(root)]
        for kind, wanted in MARKS.items():
            given = kinds.count(kind)
            self.expect(f'marks in the picture: {kind}', given == wanted, given)
        given = [[sign.kind for sign in box] for box in boxes(root)]
        self.expect('the burst in the picture', given == [BURST_MARKS], given)
        given = [sign.title.split('; ', 1)[-1] for sign in signs(root) if sign.kind == 'TX_TO']
        self.expect('the time-out in the picture', given == [TIMED_OUT[2]], given)
        given = [sign.title.split('; ')[-1] for sign in signs(root) if sign.kind == 'lost']
        self.expect('polling in the picture', given == [words for words in POLLED if re.match('polling .*receiving', words)], given)
        given = [sign.title.split('; ', 1)[-1] for sign in signs(root) if sign.kind in ('taken', 'ended')]
        self.expect('interrupts in the picture', given == [words for words in INTERRUPTED if words[:5] in ('taken', 'ended')], given)
        given = [element.text or '' for element in root.iter(f'{SVG}text')]
        self.expect('time-outs and interrupts in the head',
                    any('; 1 send time-out; 2 interrupts taken, 2 ended' in text for text in given), given)
        self.expect('fill in the picture', fill(root, max(FILL)) == FILL, fill(root, max(FILL)))


@dataclasses.dataclass
class Sign:
    """A mark of a picture: its kind, where it stands, the number in it, and what it says."""
    kind: str
    x: float
    number: str
    title: str

    @property
    def line(self):
        return int(re.match(r'line (\d+):', self.title)[1])


def signs(root):
    """The marks of a picture, in its order. The last part of each begins with its place, a lost one's 4.5 beside it."""
    found = []
    for element in root.iter(f'{SVG}g'):
        name, *kind = element.get('class').split()
        if name == 'mark':
            last = element[-1]
            place = re.match(r'M?([\d.]+)', last.get('x') or last.get('cx') or last.get('d'))
            found.append(Sign(*kind, float(place[1]), last.text or '', element.find(f'{SVG}title').text))
    return found


def boxes(root):
    """The marks in each box of a picture, from left to right."""
    found = []
    for element in root.iter(f'{SVG}rect'):
        if element.get('class') == 'burst':
            left = float(element.get('x'))
            right = left + float(element.get('width'))
            found.append([sign for sign in sorted(signs(root), key=lambda sign: sign.x) if left < sign.x < right])
    return found


def fill(root, most):
    """The steps of a picture's ring fill, of which the highest is known."""
    line, = [element.get('d') for element in root.iter(f'{SVG}path') if element.get('class') == 'fill']
    first, *others = [float(y) for y in re.findall(r'M\S+ ([\d.]+)', line) + re.findall(r'V([\d.]+)', line)]
    one = (first - min(others)) / most
    return [(first - y) / one for y in [first] + others]


def refusal(frame, to_all=False):
    """The first of 4, 5 and 6 that a frame meets on the sample day, or 0."""
    if not 64 <= len(frame) <= 1518:
        return 4
    if zlib.crc32(frame[:-4]) != int.from_bytes(frame[-4:], 'little'):
        return 5
    return 0 if to_all or frame[:6] in (STATION, BROADCAST, GROUP) else 6


def found(store, *numbers):
    """For each pair of a burst the first refusal that the bytes there meet, or 16 where it is outside."""
    store, numbers = bytes.fromhex(store), [int(number) for number in numbers]
    ends = [(start, start + length) for start, length in zip(numbers[::2], numbers[1::2])]
    return [16 if len(store) < end else refusal(store[start:end]) for start, end in ends]


def rows(text):
    """The lines of a report, each run of blanks as one."""
    return [' '.join(line.split()) for line in text.splitlines()]


def last(text, faults=0):
    """The rows of the last lines, behind their heading; with faults the report ends by saying how many."""
    found = rows(text.split("\nThe device's counters\n")[-1])[1:]
    return found[:-2] if faults and found[-2] == '' and found[-1].endswith('the report is not whole') else found


def calls(text):
    """The calls of a report by their lines in the script, each with the rows under it. A long answer stands on a line of its
    own in the report, and not here."""
    told, _ = re.sub(r'\n +->', ' ->', text).split('\nWhat the day comes to\n')
    found = re.findall(r'^ {0,4}(\d+)  (.*(?:\n {10,}.*)*)', told, re.MULTILINE)
    return {int(at): rows(lines) for at, lines in found}


def main(name):
    program = str(pathlib.Path(name).resolve())
    with tempfile.TemporaryDirectory() as folder:
        tests = Tests(folder)
        tests.lines()
        tests.ring()
        tests.polling()
        tests.interrupts(program)
        tests.wrong_interrupts()
        tests.ticks(program)
        tests.wrong_ticks()
        tests.counters()
        tests.headings()
        tests.bursts()
        tests.hashes()
        tests.reasons()
        tests.known()
        tests.statuses()
        tests.faults()
        tests.examples(program)
        tests.day(program)
    print(f'report: {tests.passed} passed, {tests.failed} failed')
    return 1 if tests.failed or not tests.passed else 0


if __name__ == '__main__':
    if len(sys.argv) != 2:
        sys.exit(__doc__)
    sys.exit(main(sys.argv[1]))
