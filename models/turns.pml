/* The sender's turns: what it looks at in which order, Hellos that are held back for notes, and its
   end. Of crates/m17_sender/src: run.rt (serve, finish), turn.rt (turn, whole_turn), queue.rt
   (try_queue).

   One module has queues 0 and 1, another one queue 2. The worker of the first says a Hello in queue
   0, which waits for a note or, freely, for none, a frame behind it, and a frame in queue 1; the
   frames are unrung, and it rouses behind them. The worker of the second says a frame in queue 2
   and then, freely, a Bye, whose note the receiver waits for before it answers at the door. Once
   all three are through, the order to stop comes, or never does.

   Looked for: nothing moves any more, and a reply or an item lies that isn't behind a Hello whose
   note was never made; the same once the sender has ended; a Hello or what is behind it is said
   before its note.

   Left out: the steps of lanes and marks (lane.pml, bells.pml): here an item is in, and then its
   mark is set and the bell rung, in two steps; full queues (circle.pml); other orders than Stop; that a
   turn takes 256 replies of the door at the most.

   sound:

   fault 1, marks-looked: behind the turn
   fault 2, stop-heard: before the marks are looked at
   fault 3, turn-made: it rests behind a turn that did something
   no fault, rested: left out it would be a loop that never sleeps; bells.pml has its steps
   fault 4, whole-turn-made: left out
   fault 5, whole-turn-made: one, whatever it found
   fault 6, reply-taken: left out
   fault 7, queue-found: a turn ends at a queue that waits
   fault 8, queue-cleared: a queue whose Hello is held back is cleared too
   harmless 9, queue-cleared: left out, at the price of a look at an empty queue in each turn
   fault 10, queue-tried: those alone that the hint has
   fault 11, hello-waits: a Hello that is held back is never looked at again
   fault 12, held-taken: it stays in its cell
   fault 13, item-popped: behind a Hello that is held back, too
   fault 14, hello-held: it is said at once
   no fault, item-said: nobody waits for what is said; that a note stands behind its Bye is a clause
   fault 15, note-pushed: left out
   fault 16, note-counted: left out
   harmless 17, note-counted: before the note is pushed, since no queue is looked at in between */
#ifndef FAULT
#define FAULT 0
#endif
#define QUEUES 3
#define AT(n) (1 << (n))
#define OTHER 128                       /* the mark of the door and of the orders */

mtype = { Hello, HelloAfter1, Frame, Bye };

chan queue[QUEUES] = [2] of { mtype };
byte door, order, notes;
byte marks; bool announced, told;       /* the bell */
byte through, bye_said;

inline ring() { if :: announced -> announced = false; told = true :: else fi }
inline push_unrung(q, what) { queue[q]!what; marks = marks | AT(q) }
inline push(q, what) { queue[q]!what; atomic { marks = marks | AT(q); ring() } }

active proctype first_worker() {
  if :: push(0, Hello) :: push(0, HelloAfter1) fi;
  push_unrung(0, Frame);
  push_unrung(1, Frame);
  atomic { ring(); through++ }
}

bool leaves;
active proctype second_worker() {
  if :: leaves = true :: skip fi;
  push_unrung(2, Frame);
  if :: leaves -> push(2, Bye) :: !leaves -> atomic { ring() } fi;
  through++
}

active proctype receiver() {
  through > 0;                          /* so that `leaves` is chosen */
  if :: notes > 0 -> notes-- :: through == 2 && !leaves fi;
  door++;
  atomic { marks = marks | OTHER; ring() };
  through++
}

active proctype quits() {
  through == 3;
  if
  :: order++; atomic { marks = marks | OTHER; ring() }
  :: skip
  fi
}

/* The sender */
#define WAITS(q) (held[q] && noted < 1)
#define LIES(q) (len(queue[q]) > 0 || held[q])
#define MAY_LIE (held[0] && !bye_said)
#define DONE (door == 0 && (!LIES(0) || MAY_LIE) && !LIES(1) && !LIES(2))

inline say(k) {
  assert(!(k == HelloAfter1) || (bye_said && !greeted));
  if
  :: k == Hello || k == HelloAfter1 -> greeted = true
  :: k == Bye ->                                                        /* item-said */
     bye_said = true;
#if FAULT == 17
     noted++;
#endif
#if FAULT != 15
     notes++;                                                           /* note-pushed */
#endif
#if FAULT != 16 && FAULT != 17
     noted++                                                            /* note-counted */
#else
     skip
#endif
  :: k == Frame -> assert(q != 0 || greeted)
  fi
}

inline try_queue() {
  empty_one = false;
  if
#if FAULT != 11
  :: held[q] && !WAITS(q) ->
#if FAULT != 12
     held[q] = false;                                                   /* held-taken */
#endif
     did = true; say(HelloAfter1)
#endif
#if FAULT == 11
  :: held[q]
#elif FAULT == 13
  :: WAITS(q) && len(queue[q]) == 0
#else
  :: WAITS(q)                                                           /* hello-waits */
#endif
#if FAULT == 13
  :: (!held[q] || WAITS(q)) && len(queue[q]) > 0 ->
#else
  :: !held[q] && len(queue[q]) > 0 ->                                    /* item-popped */
#endif
     queue[q]?k; did = true;
     if
#if FAULT != 14
     :: k == HelloAfter1 && noted < 1 -> held[q] = true                 /* hello-held */
     :: else -> say(k)
#else
     :: true -> say(k)
#endif
     fi
  :: !held[q] && len(queue[q]) == 0 -> empty_one = true
  fi
}

inline clear() {
#if FAULT == 8
  if :: empty_one || WAITS(q) -> hint = hint & ~AT(q) :: else fi
#elif FAULT != 9
  if :: empty_one -> hint = hint & ~AT(q) :: else fi                    /* queue-cleared */
#else
  skip
#endif
}

inline pass_door() {
#if FAULT != 6
  do :: atomic { door > 0 -> door--; did = true } :: door == 0 -> break od      /* reply-taken */
#else
  skip
#endif
}

inline look() { d_step { hint = hint | marks; marks = 0 } }

active proctype sender() {
  byte hint, noted, q; mtype k; bool held[QUEUES], did, empty_one, greeted;
  do
  ::
#if FAULT == 2
     if :: order > 0 -> order--; break :: order == 0 fi;
     look();
#else
#if FAULT != 1
     look();                                                            /* marks-looked */
#endif
     if :: order > 0 -> order--; break :: order == 0 fi;                /* stop-heard */
#endif
     pass_door();                                                       /* turn-made */
     do
     :: q < QUEUES && (hint & AT(q)) == 0 -> q++
     :: q < QUEUES && (hint & AT(q)) != 0 ->                            /* queue-found */
        try_queue(); clear();
#if FAULT == 7
        if :: WAITS(q) -> break :: else fi;
#endif
        q++
     :: q == QUEUES -> break
     od;
     q = 0; k = 0;
#if FAULT == 1
     look();
#elif FAULT == 3
     did = false;
#endif
     if
     :: did -> did = false
     :: !did ->                                                         /* rested */
        d_step { announced = true; told = false };
        if
        :: marks != 0
        :: marks == 0 ->
           if
           :: told
           :: through == 3 && order == 0 && DONE -> goto done
           fi
        fi
     fi
  od;
  did = true;
  do
#if FAULT == 4
  :: true -> break
#else
  :: did ->                                                             /* whole-turn-made */
     did = false; pass_door();
     do
     :: q < QUEUES ->
#if FAULT == 10
        if :: (hint & AT(q)) != 0 -> try_queue() :: else fi;
#else
        try_queue();                                                    /* queue-tried */
#endif
        q++
     :: q == QUEUES -> break
     od;
#if FAULT == 5
     did = false;
#endif
     q = 0; k = 0
  :: !did -> break
#endif
  od;
  assert(DONE);
done: skip
}
