/* The thread of a book: writes that are handed over, a full lane, the mark behind the last write, a disk that fails
   or hangs.
   Of crates/m17_disk/src: queued_book.rt (hand_over, is_over, push_soon, write), writer.rt (go, work),
   writing.rt (gather, write_next), settling.rt (Hand::end, ends_within).

   Whoever writes the book makes WRITES writes through a lane that holds CAP, with RESTS rests, of
   which a write that finds room at once gives one back, and is through; then the mark is sent to
   the thread, by the same lane, and its end is awaited. What waits together, up to BATCH and up to
   the mark, is one write to the disk; each succeeds, fails, or hangs for ever, freely.

   Looked for: nothing moves any more, and who writes the book, or who ends it, isn't through; or
   the thread isn't, but for a disk that hangs. When all are through, all that was handed over is
   written, or it is told that it failed or that it is late.

   Left out: the steps of a lane and its bell (lane.pml): here an item is in, and then the bell
   rung, in two steps, and to announce is one. Time: who awaits the end gives up where the disk
   hangs, and not before.

   sound: -DWRITES=2 -DCAP=1
   sound: -DWRITES=3 -DCAP=2
   sound: -DWRITES=4 -DCAP=3

   harmless 1, ended-asked: left out; what is handed over then lies, and the end tells that a write failed
   fault 2, slip-tried [-DCAP=1]: it waits for room
   harmless 3, end-asked-again: left out, since the rests come to an end
   fault 4, rest-counted [-DCAP=1]: left out
   no fault, rested: left out the tries would be made at once, and a slow disk not waited for
   fault 5, given-up [-DCAP=1]: left out
   fault 6, end-said: left out
   fault 7, sleep-announced: behind the look for writes
   fault 8, slips-taken [-DWRITES=4 -DCAP=3]: left out behind a write, so that it sleeps at once
   fault 9, slip-popped: popped and not written
   fault 10, mark-taken: passed over, as a write of no bytes
   fault 11, mark-taken: told in place of the writes before it
   fault 12, batch-written: that it failed is forgotten
   fault 13, end-decided: where nothing waits
   fault 14, slept: the epoch is read behind the looks
   fault 15, mark-sent: left out
   fault 16, mark-sent [-DCAP=1]: tried once, and not again where the lane was full
   fault 17, mark-sent: before the last write
   harmless 18, mark-sent: again where it was sent; what lies behind the first is looked at by nobody
   fault 19, end-awaited: left out
   no fault, joined: a thread that has said its end ends by itself
   fault 20, wait-counted: left out */
#ifndef FAULT
#define FAULT 0
#endif
#ifndef WRITES
#define WRITES 3
#endif
#ifndef CAP
#define CAP 2
#endif
#define RESTS 2
#define BATCH 2

mtype = { write, mark };
chan lane = [CAP] of { mtype };
bool announced, told;                   /* the bell of the lane */
bool ended, failed, hangs;
byte handed, written; bool through;

inline ring() { atomic { if :: announced -> announced = false; told = true :: else fi } }

inline push_soon() {
  rested = false;
  do
#if FAULT == 2
  :: atomic { nfull(lane) -> lane ! write; handed++ }; ring(); break
#else
  :: atomic { nfull(lane) -> lane ! write; handed++ };                  /* slip-tried */
     ring();
     if :: !rested && rests < RESTS -> rests++ :: else fi;
     break
  :: full(lane) ->
     if
#if FAULT == 3
     :: rests == 0 -> gave_up = true; break
#elif FAULT == 4
     :: ended -> gave_up = true; break
#else
     :: rests == 0 || ended ->                                          /* end-asked-again */
        gave_up = true; break                                           /* given-up */
#endif
#if FAULT == 3
     :: rests > 0 -> rests--; rested = true
#elif FAULT != 4
     :: rests > 0 && !ended ->
        rests--; rested = true                                          /* rest-counted, rested */
#endif
     fi
#endif
  od
}

active proctype writes_the_book() {
  byte i, rests = RESTS; bool rested, gave_up, refused;
  for (i : 1 .. WRITES) {
    if
    :: gave_up -> refused = true
#if FAULT != 1
    :: !gave_up && ended -> gave_up = true                              /* ended-asked */
    :: !gave_up && !ended -> push_soon()
#else
    :: !gave_up -> push_soon()
#endif
    fi;
    assert(!refused || gave_up);        /* what is handed over is a first part of what was to be written */
    if :: gave_up -> refused = true :: else fi;
#if FAULT == 5
    gave_up = false
#endif
  }
  through = true
}

/* what waits: so many writes, and whether the mark stood behind them */
inline gather() {
  some = 0; marked = false;
  do
  :: some == BATCH -> break
  :: some < BATCH && empty(lane) -> break
  :: atomic { some < BATCH && lane ? [write] -> lane ? write };         /* slip-popped */
#if FAULT == 9
     break
#else
     some++
#endif
  :: atomic { some < BATCH && lane ? [mark] -> lane ? mark };           /* mark-taken */
#if FAULT == 10
     skip
#elif FAULT == 11
     some = 0; marked = true; break
#else
     marked = true; break
#endif
  od
}

inline write_next() {
  gather();
  if                                                                    /* batch-written */
  :: some == 0
  :: some > 0 -> written = written + some
#if FAULT == 12
  :: some > 0
#else
  :: some > 0 -> failed = true
#endif
  :: some > 0 -> hangs = true; goto hung
  fi
}

inline announce() { d_step { announced = true; told = false } }         /* sleep-announced */

active proctype writer() {
  byte some; bool marked;
  do
  ::
#if FAULT == 7
     write_next(); announce();
#else
     announce(); write_next();                                          /* slips-taken */
#endif
#if FAULT == 13
     if :: failed || marked || some == 0 -> break :: else fi;
#else
     if :: failed || marked -> break :: else fi;                        /* end-decided */
#endif
     if
#if FAULT == 8
     :: true -> told
#else
     :: some > 0
     :: some == 0 ->
#if FAULT == 14
        told = false;
#endif
        told                                                            /* slept */
#endif
     fi
  od;
#if FAULT != 6
  ended = true;                                                         /* end-said */
#endif
hung: skip
}

active proctype ends_it() {
  bool late, sent;
#if FAULT != 17
  through;
#endif
  do
#if FAULT == 16
  :: !sent && nfull(lane) -> lane ! mark; sent = true; ring()
  :: !sent && full(lane) -> sent = true
#elif FAULT == 18
  :: nfull(lane) -> lane ! mark; ring()
#elif FAULT != 15
  :: atomic { !sent && nfull(lane) -> lane ! mark; sent = true };       /* mark-sent */
     ring()
#endif
#if FAULT == 19
  :: sent -> ended; break
#elif FAULT == 20
  :: ended -> break
#else
  :: ended -> break                                                     /* end-awaited, joined */
  :: hangs -> late = true; break                                        /* wait-counted */
#endif
  od;
#if FAULT == 17
  through;
#endif
  assert(late || failed || written == handed)
}
