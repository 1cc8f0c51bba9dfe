/* The watch of a board, and its Quit. Of crates/m17_board/src: watch.rt (watch, look_at,
   write_line, hears_quit) and ending.rt (end).

   A worker posts POSTS records, and each post waits while a look has the cell. The watch looks,
   writes a line where there are more records than its last line says, and rests. Whoever runs them
   pushes an order that is none to quit, waits for the worker, tells the watch to quit, joins it and
   ends the board.

   Looked for: nothing moves any more, and somebody isn't through; the numbers of the lines don't
   rise; the last line doesn't tell all.

   Left out: time, since the watch rests till there is something for it; modules, of which there is
   one; the disk of the lines, which is waited for as books.pml has it; that a look takes the cell
   only where a post came in between: here each does.

   sound: -DPOSTS=4

   fault 1, quit-heard: left out
   harmless 2, round-looked: left out, and the last lines tell all
   no fault, rested: left out it would be a loop that never sleeps
   fault 3, cell-looked: the cell is kept where nothing is new
   fault 4, line-written: which records it tells is forgotten
   fault 5, order-popped: an order that is none to quit is left in its lane
   fault 6, board-closed: before the watch is joined
   fault 7, last-lines-written: left out */
#ifndef FAULT
#define FAULT 0
#endif
#ifndef POSTS
#define POSTS 3
#endif
mtype = { Go, Quit };
chan orders = [2] of { mtype };
bool taken;                             /* the cell */
byte posted, last;                      /* records, and how many the last line says */
bool worker_through, watch_through;

active proctype worker() {
  byte i;
  for (i : 1 .. POSTS) {
    atomic { !taken -> taken = true };
    posted++;
    taken = false
  }
  worker_through = true
}

inline write_line() {
  assert(glance > last);                                                /* line-written */
#if FAULT != 4
  last = glance
#endif
}

active proctype watch() {
  byte glance; mtype order;
  do
  :: order = 0;
#if FAULT == 1
     skip;
#elif FAULT == 5
     if :: orders?[Quit] -> break :: else fi;
#else
     do                                                                 /* quit-heard */
     :: orders?order -> if :: order == Quit -> goto quits :: else fi    /* order-popped */
     :: empty(orders) -> break
     od;
#endif
#if FAULT != 2
     atomic { !taken -> taken = true };                                 /* round-looked, cell-looked */
     glance = posted;
#if FAULT == 3
     if :: glance > last -> taken = false :: else fi;
#else
     taken = false;
#endif
     if :: glance > last -> write_line() :: else fi;
#endif
#if FAULT == 1
     posted > glance
#elif FAULT == 5
     posted > glance || orders?[Quit]
#else
     if :: FAULT != 2 && posted > glance :: nempty(orders) fi           /* rested */
#endif
  od;
quits:
  watch_through = true
}

active proctype runs_them() {
  byte glance;
  orders!Go;
  worker_through;
  orders!Quit;
#if FAULT != 6
  watch_through;
#endif
  glance = posted;                                                      /* board-closed */
#if FAULT != 7
  if :: glance > last -> write_line() :: else fi;                       /* last-lines-written */
#endif
  watch_through;
  assert(last == POSTS)
}
