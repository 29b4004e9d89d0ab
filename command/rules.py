"""The rules of the derivation in the words of the documents, as HTML, each with where it stands; … where words are left out."""

RULES = {
    'live': ('document 01', '''\
Timer <i>j</i> is <i>live at</i> location <i>q</i> if some path of one or more transitions from <i>q</i> ends in a test of <i>j</i> and no earlier
transition of that path starts <i>j</i>.'''),
    'spare': ('document 02, P7', '''\
File version 3 … allows locations that nothing reaches: they have no live timers in any round, take part in no family and count for no path, their
transitions are passed over when twins are looked for, and the rewriting gives those transitions no tests and no starts.'''),
    'twins': ('document 02, P6', '''\
Two drawn timers are twins when every transition starts both or neither. Before families are formed, twins count as one timer, the lowest of them,
live wherever any of them is.'''),
    'families': ('document 01', '''\
Take the pairs (location <i>q</i>, timer <i>j</i>) with <i>j</i> live at <i>q</i>. Two pairs of the same <i>j</i> are linked when a transition that
doesn’t start <i>j</i> runs from one’s location to the other’s. A <i>family</i> is one pair with all pairs that chains of links join to it. Its
number is the smallest 64 times <i>q</i> plus <i>j</i> among its pairs. Two families <i>meet</i> if they contain a common location.'''),
    'numbers': ('document 01', '''\
Take the families by rising number; each gets the smallest number held by no earlier family that it meets. <i>Used</i> is one more than the largest
number given, 0 if there is no family.'''),
    'floor': ('document 02, P1', '''\
With at most 20 families the floor becomes the smallest number of timers in any plan that gives meeting families different numbers, found by search
and shown to be smallest. With more families the old figure stands and the program prints <i>seen</i> in place of <i>floor</i>.'''),
    'rewritten': ('document 01', '''\
<i>Active</i> on a transition means live at its target. <i>Born</i> on <i>r</i>: started by <i>r</i> and active on <i>r</i>. … The rewritten chart
keeps all of the chart but the number of timers, now <i>used</i>, and the timers that tests and starts name. A test of <i>j</i> on <i>r</i> reads
the board number of <i>j</i>’s family at the <b>source</b> of <i>r</i>. For each <i>j</i> born on <i>r</i>, the number of <i>j</i>’s family at the
<b>target</b> is started. Starts that are not born are left out.'''),
}
