/* A lane: its queue, the bell of its consumer and the room of its producers. Each step on a shared
   word is a step here, in its order, sequentially consistent as in the code. Of
   crates/m17_lane/src: lane.rt (put, is_left_asleep, put_or_rest, get, get_or_rest), bell.rt
   (announce_as, is_dozed_on, ring, Announced), room.rt (want, is_wanted, tell, Wanted), pusher.rt
   (rouse).

   PRODUCERS threads push ITEMS items each into a queue that holds CAP. Each push is, freely, one
   that rings, one that can wait until ENOUGH items are there, or an unrung one (-DRUNG: each
   rings); it waits for room, or is a try whose item may come back. Who pushed unrung may rouse
   behind each push, and does behind its last. The consumer takes what comes, and where nothing does
   it sleeps or dozes, freely.

   Looked for: nothing moves any more, and a producer isn't through, or an item lies, other than
   items that can wait and are fewer than enough, below a consumer that dozes.

   Left out: rounds awake. Of the kit: a pop is one step, and a push two (the slot is claimed, then
   filled); an EventCount is told that it was notified since its epoch was read, so there is neither
   epoch nor futex.

   sound: -DPRODUCERS=1 -DCAP=1 -DITEMS=3
   sound: -DPRODUCERS=1 -DCAP=2 -DITEMS=4
   sound: -DPRODUCERS=1 -DCAP=4 -DITEMS=5
   sound: -DPRODUCERS=2 -DCAP=1 -DITEMS=1
   sound: -DPRODUCERS=2 -DCAP=2 -DITEMS=2 -DRUNG
   sound: -DPRODUCERS=2 -DCAP=4 -DITEMS=2

   fault 1, item-in: the ring comes before the item
   fault 2, rung-behind-item: left out
   harmless 3, announcement-looked: left out, since taking it looks too; the look alone spares a write
   fault 4, announcement-taken: behind the waking
   fault 5, sleeper-woken: left out
   harmless 6, announcement-asked: left out, since who comes behind a doze that is over tries anew before it sleeps
   fault 7, doze-asked [-DCAP=4]: left out
   fault 8, quiet-counted [-DPRODUCERS=2 -DCAP=4]: counted before the item is in
   fault 9, quiet-counted [-DCAP=4]: one more than enough is asked for
   fault 10, want-counted [-DPRODUCERS=2 -DCAP=1]: behind the word that says it
   fault 11, want-said: left out
   fault 12, tried-behind-want: tried before
   fault 13, rung-before-sleep: left out
   fault 14, slept-for-room: the epoch is read behind the try
   harmless 15, want-dropped: left out, at the price of a system call where nobody sleeps
   fault 16, item-out [-DCAP=1]: the want is looked at before
   harmless 17, want-asked: left out, since taking it looks too
   fault 18, held-counted [-DCAP=1]: counted before the item has left
   fault 19, held-counted [-DCAP=1]: below the half, and not at it
   fault 20, want-taken [-DCAP=1]: behind the waking
   fault 21, room-woken: left out
   fault 23, sleep-counted: behind the announcement
   harmless 24, doze-said: behind the announcement, since the try comes behind both
   fault 25, doze-said [-DCAP=4]: a sleep leaves the word of the last doze
   fault 26, sleep-announced: left out
   fault 27, tried-behind-announcement: tried before
   fault 28, slept: the epoch is read behind the try
   harmless 29, sleep-dropped: left out, at the price of a system call where nobody sleeps
   fault 30, roused: left out */
#ifndef FAULT
#define FAULT 0
#endif
#ifndef PRODUCERS
#define PRODUCERS 1
#endif
#ifndef CAP
#define CAP 2
#endif
#ifndef ITEMS
#define ITEMS 3
#endif
#ifndef ENOUGH
#define ENOUGH 2
#endif
#define HALF ((CAP + 1) / 2)
#if FAULT == 9
#define BOUND (ENOUGH < HALF -> ENOUGH + 1 : HALF + 1)
#else
#define BOUND (ENOUGH < HALF -> ENOUGH : HALF)
#endif
#define FEW (ENOUGH < HALF -> ENOUGH : HALF)
#if PRODUCERS == 1
#define LOW (CAP / 2)
#else
#define LOW CAP
#endif
#define BIT(p) (1 << (p))

mtype = { Now, Later, Never };

byte held, head; bool filled[CAP];      /* the queue: how many slots are claimed, the oldest one, which are filled */
bool announced, dozes;                  /* the bell, */
bool counted, told;                     /* and its EventCount: a sleeper is counted, and was notified */
bool wanted;                            /* the room, */
byte waits, room_told;                  /* and its EventCount, with a bit for each producer */
byte through;                           /* how many producers are through */
byte owed;                              /* how many of the items, from the oldest on, are not to be left lying */

inline wake() {
#if FAULT != 5
  if :: counted -> told = true :: !counted fi                           /* sleeper-woken */
#else
  skip
#endif
}

inline ring() {
#if FAULT == 3
  if :: atomic { announced -> announced = false }; wake() :: !announced fi
#else
  if
  :: announced ->                                                       /* announcement-looked */
#if FAULT == 4
     wake(); announced = false
#else
     if
     :: atomic { announced -> announced = false };                      /* announcement-taken */
        wake()
     :: !announced
     fi
#endif
  :: !announced
  fi
#endif
}

inline ring_or_leave() {
  if
  :: haste == Now ->
#if FAULT != 2
     ring()                                                             /* rung-behind-item */
#else
     skip
#endif
  :: haste == Later ->
     if
#if FAULT == 6
     :: true ->
#else
     :: !announced -> ring()
     :: announced ->                                                    /* announcement-asked */
#endif
        if
#if FAULT != 7
        :: !dozes -> ring()
        :: dozes ->                                                     /* doze-asked */
#else
        :: true ->
#endif
#if FAULT == 8
           if :: n < BOUND :: n >= BOUND -> ring() fi
#else
           if :: held < BOUND :: held >= BOUND -> ring() fi             /* quiet-counted */
#endif
        fi
     fi
  :: haste == Never
  fi
}

inline put() {
#if FAULT == 1
  ring_or_leave();
#elif FAULT == 8
  n = held;
#endif
  if
  :: atomic { held < CAP -> slot = (head + held) % CAP; held++ };
     atomic { filled[slot] = true; slot = 0; ok = true;                 /* item-in */
              if :: haste == Now -> owed = held :: else fi };
#if FAULT != 1
     ring_or_leave()
#endif
  :: held == CAP
  fi
}

inline want() {
#if FAULT == 10
  wanted = true;
#endif
  waits = waits | BIT(me); room_told = room_told & ~BIT(me);            /* want-counted */
#if FAULT != 10 && FAULT != 11
  wanted = true                                                         /* want-said */
#else
  skip
#endif
}

inline put_or_rest() {
#if FAULT == 12
  put(); want();
#else
  want(); put();                                                        /* tried-behind-want */
#endif
  if
  :: ok
  :: !ok ->
#if FAULT != 13
     ring();                                                            /* rung-before-sleep */
#endif
#if FAULT == 14
     room_told = room_told & ~BIT(me);
#endif
     (room_told & BIT(me)) != 0                                         /* slept-for-room */
  fi;
#if FAULT != 15
  d_step { waits = waits & ~BIT(me); room_told = room_told & ~BIT(me) } /* want-dropped */
#endif
}

proctype producer(byte me) {
  byte i, slot, n; mtype haste; bool ok, owes;
  for (i : 1 .. ITEMS) {
#ifdef RUNG
    haste = Now;
#else
    if :: haste = Now :: haste = Later :: haste = Never fi;
#endif
    put();
    if
    :: ok
    :: !ok -> do :: !ok -> put_or_rest() :: ok -> break od
    :: !ok                                                              /* a try: the item came back */
    fi;
    owes = (owes && !(ok && haste == Now)) || (ok && haste == Never); ok = false;
    if
#if FAULT != 30
    :: owes -> owes = false; owed = held; ring()                        /* roused */
#else
    :: owes -> owes = false; owed = held
#endif
    :: i < ITEMS || !owes
    fi
  }
  i = 0; haste = Now; through++
}

inline wake_room() {
#if FAULT != 21
  if :: waits != 0 -> room_told = waits :: waits == 0 fi                /* room-woken */
#else
  skip
#endif
}

inline tell() {
#if FAULT == 20
  if :: wanted -> wake_room(); wanted = false :: !wanted fi
#else
  if
  :: atomic { wanted -> wanted = false };                               /* want-taken */
     wake_room()
  :: !wanted
  fi
#endif
}

inline get() {
#if FAULT == 16
  said = wanted;
#elif FAULT == 18
  n = held;
#endif
  if
  :: atomic { held > 0 && filled[head] ->                               /* item-out */
     filled[head] = false; head = (head + 1) % CAP; held--; got = true;
     if :: owed > 0 -> owed-- :: else fi };
     if
#if FAULT == 16
     :: !said
     :: said ->
#elif FAULT == 17
     :: true ->
#else
     :: !wanted
     :: wanted ->                                                       /* want-asked */
#endif
#if FAULT == 18
        if :: n <= LOW -> tell() :: n > LOW fi
#elif FAULT == 19
        if :: held < LOW -> tell() :: held >= LOW fi
#else
        if :: held <= LOW -> tell() :: held > LOW fi                    /* held-counted */
#endif
     fi
  :: held == 0
  fi
}

inline count_sleep() { counted = true; told = false }

inline announce() {
#if FAULT != 23
  count_sleep();                                                        /* sleep-counted */
#endif
#if FAULT == 25
  if :: dozing -> dozes = true :: !dozing fi;
#elif FAULT != 24
  dozes = dozing;                                                       /* doze-said */
#endif
#if FAULT != 26
  announced = true;                                                     /* sleep-announced */
#endif
#if FAULT == 23
  count_sleep()
#elif FAULT == 24
  dozes = dozing
#else
  skip
#endif
}

#define DONE (through == PRODUCERS && (held == 0 || (dozing && held < FEW && owed == 0)))

active proctype consumer() {
  byte n; bool got, dozing, said;
  do
  :: get();
     do
     :: got -> got = false; break
     :: !got ->
        if :: dozing = true :: dozing = false fi;
#if FAULT == 27
        get(); announce();
#else
        announce(); get();                                              /* tried-behind-announcement */
#endif
        if
        :: got
        :: !got ->
#if FAULT == 28
           told = false;
#endif
           if
           :: told                                                      /* slept */
           :: DONE -> goto done
           fi
        fi;
#if FAULT != 29
        d_step { counted = false; told = false }                        /* sleep-dropped */
#endif
     od
  od;
done: skip
}

init {
  atomic {
    run producer(0);
#if PRODUCERS > 1
    run producer(1)
#endif
  }
}
