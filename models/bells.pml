/* A bell with marks, and the hint of the sender who waits by it: which of many lanes were pushed to. Each step on a word of
   marks is a step here, in its order, sequentially consistent as in the code. Of crates/m17_lane/src: marks.rt (set,
   take, any, take_word), lane.rt (put), bell.rt (rest), and crates/m17_sender/src/hint.rt (look, next, clear, rest).

   A word has two marks, and there are three words, of which the first has no lane: a search begins there, so each lane
   stands in a later word. Two producers push ITEMS items each to the two lanes of the second word, first to one and, freely
   from some item on, to the other, and a third one to a lane of the third word, ITEMS2 items. A push rings or is unrung,
   freely (-DRUNG: each rings); behind its last, if that is unrung, a producer rouses. The sender looks, takes at most one
   item of each lane by the hint, and rests where it took none.

   Looked for: nothing moves any more, and an item lies.

   Left out: full lanes and the steps of a bell (lane.pml has both: here to announce is one step, and to ring is one); the door,
   the order and the end of the sender (turns.pml).

   sound: -DITEMS=1 -DITEMS2=1
   sound: -DITEMS=1 -DITEMS2=2 -DRUNG

   fault 1, mark-behind-item: the mark before the item
   fault 2, mark-behind-item: the ring before the mark
   harmless 3, mark-looked [-DRUNG]: left out, since a mark that is set twice is taken twice; the look spares a write
   fault 4, mark-set: left out
   harmless 5, word-read [-DRUNG]: left out, since a swap reads too; the read spares a write
   fault 6, word-swapped: read and then stored, in two steps
   fault 7, marks-taken: not kept by the hint
   fault 8, marks-asked: left out
   fault 9, marks-asked: of the first word alone
   fault 10, rest-announced: behind the asking
   fault 11, hint-kept: what was taken stands in the place of what was kept
   fault 12, hint-searched: it ends at the first word that has none
   fault 13, hint-searched: it passes over the word in which it begins
   fault 14, hint-cleared: a lane of which an item was taken is cleared too
   fault 15, hint-cleared [-DITEMS=2 -DRUNG]: the whole word is cleared with the first of its lanes */
#ifndef FAULT
#define FAULT 0
#endif
#ifndef ITEMS
#define ITEMS 1
#endif
#ifndef ITEMS2
#define ITEMS2 1
#endif
#define LANES 6
#define AT(n) (1 << (n))
#define WORD(l) ((l) / 2)
#define BITS(w) (3 << (2 * (w)))

byte queue[LANES];
byte of_lanes;                          /* the marks */
bool announced, told;                   /* the bell */
byte through;

inline ring() {
  atomic { if :: announced -> announced = false; told = true :: else fi }
}

inline set_mark() {
  if
#if FAULT == 3
  :: true ->
#else
  :: (of_lanes & AT(lane)) != 0
  :: (of_lanes & AT(lane)) == 0 ->                                      /* mark-looked */
#endif
#if FAULT != 4
     of_lanes = of_lanes | AT(lane)                                     /* mark-set */
#else
     skip
#endif
  fi
}

inline put() {
#if FAULT == 1
  set_mark();
#endif
  queue[lane]++;
#if FAULT == 2
  if :: unrung :: !unrung -> ring() fi;
#endif
#if FAULT != 1
  set_mark();                                                           /* mark-behind-item */
#endif
#if FAULT != 2
  if :: unrung :: !unrung -> ring() fi
#endif
}

proctype producer(byte lane; byte other; byte items) {
  byte i; bool unrung;
  for (i : 1 .. items) {
    if :: lane = other :: skip fi;
#ifndef RUNG
    if :: unrung = true :: unrung = false fi;
#endif
    put()
  }
  if :: unrung -> ring() :: !unrung fi;
  lane = 0; other = 0; unrung = false; i = 0; through++
}

inline keep() {                                                         /* hint-kept */
#if FAULT == 11
  hint = hint & ~BITS(w);
#endif
#if FAULT != 7
  hint = hint | marks;
#endif
  marks = 0
}

inline take_marks() {                                                   /* marks-taken */
  if
#if FAULT == 6
  :: (of_lanes & BITS(w)) == 0 -> keep()
  :: (of_lanes & BITS(w)) != 0 -> marks = of_lanes & BITS(w); of_lanes = of_lanes & ~BITS(w); keep()
#else
#if FAULT != 5
  :: d_step { (of_lanes & BITS(w)) == 0 -> keep() }
  :: (of_lanes & BITS(w)) != 0 ->                                       /* word-read */
#else
  :: true ->
#endif
     d_step {
       marks = of_lanes & BITS(w);
       of_lanes = of_lanes & ~BITS(w);                                  /* word-swapped */
       keep()
     }
#endif
  fi
}

inline look() {
  for (w : 1 .. 2) { take_marks() }
  w = 0
}

/* The first lane from `from` on that the hint has; words that have none are passed over. */
#define IN_WORD_OF_FROM (WORD(found) == WORD(from))
#define HAS_NONE ((hint & BITS(WORD(found))) == 0)
inline next() {                                                         /* hint-searched */
  d_step {
    found = from;
    do
    :: found >= LANES -> break
#if FAULT == 12
    :: found < LANES && HAS_NONE -> found = LANES
    :: found < LANES && !HAS_NONE && (hint & AT(found)) != 0 -> break
#elif FAULT == 13
    :: found < LANES && !IN_WORD_OF_FROM && (hint & AT(found)) != 0 -> break
#else
    :: found < LANES && (hint & AT(found)) != 0 -> break
#endif
    :: else -> found++
    od
  }
}

inline clear() {                                                        /* hint-cleared */
#if FAULT == 15
  hint = hint & ~BITS(WORD(found))
#else
  hint = hint & ~AT(found)
#endif
}

#define EMPTY (queue[2] + queue[3] + queue[4] == 0)

inline announce() { d_step { announced = true; told = false } }

/* Whether a mark is set, word by word. */
inline ask() {
#if FAULT == 8
  some = false
#else
  some = (of_lanes & BITS(1)) != 0;                                     /* marks-asked */
#if FAULT != 9
  some = some || (of_lanes & BITS(2)) != 0
#endif
#endif
}

inline rest() {
#if FAULT == 10
  ask(); announce();
#else
  announce();                                                           /* rest-announced */
  ask();
#endif
  if
  :: some
  :: !some ->
     if
     :: told
     :: through == 3 && EMPTY -> goto done
     fi
  fi;
  d_step { told = false; some = false }
}

active proctype sender() {
  byte hint, w, marks, from, found; bool did, some;
  do
  :: look();
     do
     :: next();
        if
        :: found >= LANES -> break
        :: found < LANES ->
           if
           :: atomic { queue[found] > 0 -> queue[found]--; did = true };
#if FAULT == 14
              clear()
#endif
           :: queue[found] == 0 -> clear()
           fi;
           from = found + 1
        fi
     od;
     from = 0; found = 0;
     if :: did -> did = false :: !did -> rest() fi
  od;
done: skip
}

init {
  atomic { run producer(2, 3, ITEMS); run producer(2, 3, ITEMS); run producer(4, 4, ITEMS2) }
}
