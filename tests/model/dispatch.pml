/* How the jobs of a farm are begun once and finished once, whatever happens around them: the desk, its
   dispatcher, a worker's script (farm-worker) and systemd, and a world that kills, cuts, loses, delays,
   restores and cancels. test_model.py says which switches are looked at; README.md says what the model
   leaves out, and how its steps map to the code's.

     desk_start, desk_finish   what the desk does with a call, in one step as its store does it
     Dispatcher                farm-dispatch, with a record for each group that is open
     worker_begin, ..          farm-worker's words, by what another process could come between
     Late                      a call that nobody waits for any more
     Unit                      what systemd does with a unit: ExecStartPre, the command, ExecStopPost
     Queue, World              passes and cancels; restarts, restores, losses, copies, a person's acts

   A dispatcher remembers nothing from one round to the next, so a kill of it is a round's end, possible
   at each step and as often as one likes; so is an answer that doesn't come, of the desk or a worker.
   What else can go wrong, each at most so many times in a run: */
#ifndef LATE
#define LATE 1             /* a call is given up, and done later, in part or never */
#endif
#ifndef CANCELS
#define CANCELS 1          /* a user cancels a job */
#endif
#ifndef RESTARTS
#define RESTARTS 0         /* a worker is restarted: another life */
#endif
#ifndef HANDS
#define HANDS 0            /* a unit is gone with all its processes, and no end is written */
#endif
#ifndef WIPES
#define WIPES 0            /* somebody removes /run/farm-jobs, while its units run */
#endif
#ifndef CHILDREN
#define CHILDREN 0         /* processes outlive their unit, as in a call of the kernel's that doesn't end */
#endif
#ifndef RESTORES
#define RESTORES 0         /* the desk goes on with an older copy of its farm, or with the next farm */
#endif
#ifndef OLDER_FOLDERS
#define OLDER_FOLDERS 0    /* the dispatcher goes on with an older copy of its folder */
#endif
#ifndef LOST_RECORDS
#define LOST_RECORDS 0     /* a record is lost */
#endif
#ifndef PERSONS
#define PERSONS 0          /* an admin finishes a job that runs, or one board's of a group */
#endif
#ifndef COPIES
#define COPIES 0           /* a second dispatcher begins on a copy of the first one's folder */
#endif
#ifndef GHOSTS
#define GHOSTS 0           /* the worker names a unit of the dispatcher's that there isn't, for ever: somebody else has it */
#endif
#ifndef HANG
#define HANG 3             /* the boards that hang at the worker whose units are looked at; others hang at another */
#endif
#ifdef ENDS                /* fairness asks for an end of what disturbs: then kills are counted, too */
#ifndef KILLS
#define KILLS 1
#endif
#define GIVE_UP(left) left > 0 -> left = 0
#else
#define GIVE_UP(left) false
#endif
#ifdef KILLS
#define KILL if :: atomic { kills > 0 -> kills--; goto next } :: skip fi
#else
#define KILL if :: goto next :: skip fi
#endif

/* The dispatchers (each with a folder of its own, unless it is a copy), the jobs, and which boards a job
   wants, as a set of bits. */
#ifndef DISPATCHERS
#define DISPATCHERS 1
#endif
#define TWO_JOBS 0         /* for one board */
#define GROUP 1            /* of two boards */
#define JOB_AND_GROUP 2    /* the group may have to wait for the job's board */
#define GROUP_AND_JOB 3    /* the job's is the group's second board */
#define SECOND_BOARD 4     /* a job alone */
#ifndef SHAPE
#define SHAPE GROUP
#endif
#if SHAPE == GROUP
#define JOBS 1
#define WANTS want[0] = 3
#elif SHAPE == JOB_AND_GROUP
#define JOBS 2
#define WANTS want[0] = 1; want[1] = 3
#elif SHAPE == SECOND_BOARD
#define JOBS 1
#define WANTS want[0] = 2
#elif SHAPE == GROUP_AND_JOB
#define JOBS 2
#define WANTS want[0] = 3; want[1] = 2
#else
#define JOBS 2
#define WANTS want[0] = 1; want[1] = 1
#endif
#ifndef UNITS              /* names of units that can be needed; a search that needs more fails */
#define UNITS (JOBS * (1 + RESTORES + OLDER_FOLDERS + LOST_RECORDS) + DISPATCHERS - 1)
#endif

/* The promises. A search goes on behind what breaks one, and names each that is broken; with
   -DTRACE=BEGUN_ONCE it stops at that one, so that spin can tell the way to it. That all jobs end, and
   that no record stays, is a search of its own (-DENDS). */
#define BEGUN_ONCE 1       /* a job's command is begun once at most */
#define NOTHING_LIVES 2    /* nothing of a job lives, or begins, when its boards are given on */
#define TOLD_TRUE 3        /* what the desk is told is what happened */
#define OWN_JOBS 4         /* who finishes a job started it */
#define WHOLE_GROUPS 5     /* a command gets all boards of its group */
#define ENOUGH 6           /* (of the model: there were names enough) */
#ifdef TRACE
#define CHECK(promise, holds) assert(promise != TRACE || (holds))
#else
c_decl {
  static const char *promises[] = { "", "begun_once", "nothing_lives", "told_true", "own_jobs", "whole_groups",
                                    "enough" };
  static int is_broken[7];
}
#define CHECK(promise, holds) if :: holds :: else -> c_code { \
    if (!is_broken[promise]) { is_broken[promise] = 1; printf("broken: %s\n", promises[promise]); } } fi
#endif

mtype = { Submitted, Scheduled, Running, Canceling, Finished };  /* a job, at the desk */
mtype = { NoRecord, Made, Started, Ended, Written };             /* a record */
mtype = { Nothing, Done, Never, Lost };                          /* how a command ended */
mtype = { NoUnit, Pre, Claimed, Runs, Stopped, Failed };         /* a unit */
mtype = { Begin, Close, Forget, Start };                         /* calls */

/* ---- what there is: the desk */

mtype state[JOBS] = Submitted;
byte want[JOBS], held[JOBS], taken;         /* sets of boards */
byte starter[JOBS];                         /* 1 + the unit under whose key it was started */
byte kept;                                  /* units whose Start's reply is kept, as a set */
#ifdef KEY_BY_NUMBER                        /* `start-N`, whoever asks */
#define KEPT(u) (kept & (1 << job_of[u]))
#define KEEP(u) kept = kept | (1 << job_of[u])
#else
#define KEPT(u) (kept & (1 << (u)))
#define KEEP(u) kept = kept | (1 << (u))
#endif
byte farm;                                  /* which of the farm's copies goes on */
#define RUNS_AT_DESK(j) (state[j] == Running || state[j] == Canceling)

/* ---- a dispatcher's folder: records, and the last line of history of each number */

#define RECORDS (DISPATCHERS * JOBS)
#define R (me * JOBS + job)
#define OF(u) (me * JOBS + job_of[u])
#define HAS_RECORD(u) (record[OF(u)] != NoRecord && record[OF(u)] != Made && unit_of[OF(u)] == u)
mtype record[RECORDS] = NoRecord, how[RECORDS] = Nothing, line_how[RECORDS] = Nothing;
byte unit_of[RECORDS], life_of[RECORDS], line[RECORDS];  /* (of a line: 1 + its unit) */
byte fresh;                                 /* names of units that were made */
byte job_of[UNITS], id_of[UNITS];           /* as a unit's name says */
#if COPIES
#define IS_OURS(u) true
bit copied;
#else
#define IS_OURS(u) (id_of[u] == me)
#endif
#if OLDER_FOLDERS
byte made_in[UNITS];
#define NOTE_REACHED(it) came_to[u] = it; made_in[u] = life_of[R]
#else
#define NOTE_REACHED(it) came_to[u] = it
#endif
#ifdef NO_MARK
#define MARK_OF_POST true
#else
#define MARK_OF_POST mark[u]
#endif

/* ---- the worker: systemd's units, their cgroups, and /run/farm-jobs */

byte life;
mtype unit[UNITS] = NoUnit, ended[UNITS] = Nothing;
bit stopping[UNITS], lives[UNITS], told_to_die[UNITS];
bit mark[UNITS], begun[UNITS], old[UNITS];  /* marks/UNIT, its `begun`, old/UNIT */
byte gets[UNITS];                           /* in/UNIT: the boards that it names for the command */

/* ---- the world, and what only the promises look at */

byte late = LATE, cancels = CANCELS, restarts = RESTARTS, hands = HANDS, wipes = WIPES, children = CHILDREN;
byte restores = RESTORES, older_folders = OLDER_FOLDERS, lost_records = LOST_RECORDS, persons = PERSONS, copies = COPIES;
#ifdef KILLS
byte kills = KILLS;
#endif
bit was_begun[UNITS], done[UNITS], harmed[UNITS], over[UNITS];
bit job_begun[JOBS];
#if RESTORES               /* an earlier farm's units count for themselves */
byte farm_of[UNITS];
#define IS_OF_FARM(u) (farm_of[u] == farm)
#define NOTE_FARM farm_of[u] = farm
#else
#define IS_OF_FARM(u) true
#define NOTE_FARM skip
#endif
byte came_to[UNITS];                        /* 1 its record was made, 2 it was started */
inline nothing_lives(these, spared) {       /* that has one of these boards */
  is_quiet = true;
  for (other : 0 .. UNITS - 1) {
    if :: other != spared && other < fresh && lives[other] && (want[job_of[other]] & (these)) -> is_quiet = false :: else fi
  }
  other = 0
}

/* ---- the desk's calls */

inline desk_start(it) {
  if
  :: KEPT(it) -> answer = true
  :: !KEPT(it) && state[job_of[it]] == Scheduled ->
     state[job_of[it]] = Running; starter[job_of[it]] = it + 1; KEEP(it); answer = true
  :: else -> answer = false
  fi
}
inline desk_finish(it) {    /* of the least board that the job holds still; a second one is refused */
  if
  :: RUNS_AT_DESK(job) && held[job] ->
     nothing_lives(held[job] & -held[job], UNITS);
     CHECK(OWN_JOBS, starter[job] == it + 1);
     CHECK(NOTHING_LIVES, is_quiet);
     CHECK(TOLD_TRUE, (how[R] == Done && done[it] && job_begun[job]) || (how[R] == Never && !was_begun[it]) || (how[R] == Lost && harmed[it]));
     is_quiet = 0;
     over[it] = 1;
     taken = taken & ~(held[job] & -held[job]);
     held[job] = held[job] & (held[job] - 1);
     if :: held[job] == 0 -> state[job] = Finished :: else fi
  :: else
  fi
}

/* ---- farm-worker's words. `boot` is the life in which a script runs, and ends with it */

inline worker_begin(it, its_life, boards) {
  if
#ifdef NO_LIFE
  :: d_step { !mark[it] && !old[it] -> boot = life + 1 }
#elif defined(NO_MARK)
  :: d_step { its_life == life && !old[it] -> boot = life + 1 }
#else
  :: d_step { its_life == life && !mark[it] && !old[it] -> boot = life + 1 }
#endif
  :: else
  fi;
  d_step {                 /* systemd-run */
    if :: boot == life + 1 && unit[it] == NoUnit -> unit[it] = Pre; gets[it] = boards :: else fi;
    boot = 0
  }
}
inline worker_close(it) {   /* a mark as the unit's own would be, so that it never begins */
#if !defined(NO_MARK) && !defined(CLOSES_WITHOUT_MARK)
  d_step { if :: !mark[it] -> mark[it] = 1; boot = life + 1 :: else fi };
  d_step {
    if
    :: boot == life + 1 && old[it] -> mark[it] = 0
    :: boot == life + 1 && !old[it] && mark[it] -> ended[it] = Never
    :: else
    fi;
    boot = 0
  };
#endif
  d_step {
    if
    :: unit[it] == Pre || unit[it] == Claimed || unit[it] == Runs -> stopping[it] = 1
    :: unit[it] == NoUnit && lives[it] -> told_to_die[it] = 1
    :: else
    fi
  }
}
inline worker_forget(it) {
  d_step { boot = (unit[it] == NoUnit && !lives[it] -> life + 1 : 0) };
  d_step {                 /* marks/UNIT is renamed to old/UNIT, with what it says */
    if
    :: boot == life + 1 ->
#ifndef NO_OLD
       old[it] = 1;
#endif
       mark[it] = 0;
#if defined(OLD_WITHOUT_END) || defined(NO_OLD)
       begun[it] = 0; ended[it] = Nothing;
#endif
       answer = true
    :: else -> answer = false
    fi;
    boot = 0
  }
}
proctype Late(mtype call; byte u; byte its_life; byte boards) {
  byte boot;
  bit answer;
  if
  :: call == Begin -> worker_begin(u, its_life, boards)
#ifdef BEGINS_WHAT_WAS_CUT
  :: call == Begin -> worker_begin(u, its_life, (boards & 1))
#endif
  :: call == Close -> worker_close(u)
  :: call == Forget -> worker_forget(u)
  :: d_step { call == Start && its_life == farm -> desk_start(u) }
  :: true                  /* never */
  fi
}
#define MAY_COME_LATE(call) if :: atomic { late > 0 -> late--; run Late(call, u, (call == Start -> farm : life_of[R]), boards); goto next } :: skip fi

/* ---- the dispatcher */

#define IN(set, u) (set & (1 << (u)))
#ifdef OLD_WITHOUT_END
#define MARKED(u) mark[u]
#else
#define MARKED(u) (mark[u] || old[u])
#endif
#ifdef EMPTY_IS_NONE       /* systemctl gave no units, by a fault */
#define TAKE_NONE :: true
#else
#define TAKE_NONE
#endif
inline take_marks() {
  d_step {
    marks = 0;
    for (u : 0 .. UNITS - 1) { if :: IS_OURS(u) && MARKED(u) -> marks = marks | (1 << u) :: else fi }
    u = 0
  }
}
inline take_units() {
  if
  :: d_step { true ->
       for (u : 0 .. UNITS - 1) { if :: IS_OURS(u) && unit[u] != NoUnit -> units = units | (1 << u) :: else fi }
       u = 0 }
  TAKE_NONE
  fi
}
inline look() {            /* at marks and old, then units, then cgroups, then ends; all in one life */
  seen_life = life;
#ifdef UNITS_FIRST
  take_units(); take_marks();
#else
  take_marks(); take_units();
#endif
#ifndef FINISHES_BEFORE_EMPTY
  d_step {
    for (u : 0 .. UNITS - 1) { if :: IS_OURS(u) && lives[u] -> processes = processes | (1 << u) :: else fi }
    u = 0
  };
#endif
  if
  :: d_step { seen_life == life ->
       asked = starter[job];
       if
       :: record[R] != NoRecord -> end = ended[unit_of[R]]; seen_begun = begun[unit_of[R]]
       :: record[R] == NoRecord && asked -> end = ended[asked - 1]; seen_begun = begun[asked - 1]
       :: else
       fi }
  :: else -> goto next
  fi
}
inline end_strays() {      /* units of the dispatcher's own that no record names, and whose job doesn't run */
#ifdef LEAVES_STRAYS
  skip
#else
  d_step {
    do
    :: (u < UNITS && IN((units | processes), u) && job_of[u] == job &&
        !(record[R] != NoRecord && unit_of[R] == u) && (ours || !(seen == Running || seen == Canceling))) -> break
    :: u == UNITS -> break
    :: else -> u++
    od
  };
  if
  :: u < UNITS -> MAY_COME_LATE(Close); worker_close(u); goto next
  :: else -> u = 0
  fi
#endif
}
#ifdef STRAYS_SHUT_ALL     /* whatever machine they are of */
#define SHUT 3
#else
#define SHUT HANG
#endif
inline wait_for_others() { /* on one of its boards: another record's, or a unit of the dispatcher's own that has no record */
#ifdef OTHERS_BOARDS
  skip
#else
  d_step {
    boards = 0;
    for (other : 0 .. JOBS - 1) {
      if
      :: other != job && record[me * JOBS + other] == Started && (want[other] & want[job]) -> boards = 1
      :: else
      fi
    }
#ifndef LEAVES_STRAYS        /* (of a unit without a record it isn't known which of the worker's boards it has) */
    for (other : 0 .. UNITS - 1) {
      if
      :: (IN((units | processes), other) && (SHUT & want[job]) && !HAS_RECORD(other)) -> boards = 1
      :: else
      fi
    }
    if :: GHOSTS && (SHUT & want[job]) -> boards = 1 :: else fi;
#endif
    other = 0
  };
  if :: boards -> goto next :: else fi
#endif
}
inline may_begin() {
  boards = held[job];
  if :: boards != want[job] -> goto next :: else fi;
  wait_for_others()
}
inline new_record(what) {
#ifdef UNIT_BY_NUMBER
  u = R;
#else
  if :: fresh == UNITS -> CHECK(ENOUGH, false); goto next :: else fi;
#endif
  d_step {
#ifndef UNIT_BY_NUMBER
    u = fresh; fresh++;
#endif
    record[R] = what; unit_of[R] = u; life_of[R] = seen_life; how[R] = Nothing;
    job_of[u] = job; id_of[u] = me; harmed[u] = (life != seen_life); NOTE_FARM; NOTE_REACHED(1)
  }
}
inline drop() {
  d_step { record[R] = NoRecord; how[R] = Nothing; unit_of[R] = 0; life_of[R] = 0 }
}
inline find_again() {      /* a job that runs and has no record: its key is asked where a worker has a mark of it, or the history a line */
#ifdef TAKES_WHAT_RUNS
  new_record(Ended); how[R] = Lost; ours = true
#else
  if
  :: d_step { asked && IS_OURS(asked - 1) && IN(marks, asked - 1) ->
       record[R] = Made; unit_of[R] = asked - 1; life_of[R] = seen_life }
  :: d_step { asked && !(IS_OURS(asked - 1) && IN(marks, asked - 1)) && line[R] == asked ->
       record[R] = Made; unit_of[R] = asked - 1; how[R] = line_how[R] }
  :: else -> goto next     /* it is left alone */
  fi
#endif
}
inline start() {           /* starts a job, or asks whether it was started with this record */
#ifdef BEGIN_BEFORE_START
  if :: seen == Scheduled -> boards = held[job]; worker_begin(u, life_of[R], boards); KILL :: else fi;
#endif
  MAY_COME_LATE(Start);
  d_step { desk_start(u) };
  KILL;
  if
  :: answer -> d_step { record[R] = (how[R] == Nothing -> Started : Ended); ours = true; NOTE_FARM; NOTE_REACHED(2) }
  :: else -> drop(); goto next
  fi;
  KILL
}
inline become() {          /* how it ended, where nothing of it lives and nothing of it can begin */
  if
  :: IN((units | processes), u) ->
     if
     :: !ours || seen == Canceling || is_part || !IN(units, u) || seen_life != life_of[R] -> MAY_COME_LATE(Close); worker_close(u)
     :: else
     fi;
     goto next
  :: !IN((units | processes), u) && seen_life != life_of[R] -> end = Lost
#if defined(ENDED_WITHOUT_MARK) || defined(NO_MARK)
  :: !IN((units | processes), u) && seen_life == life_of[R] && end != Nothing
  :: !IN((units | processes), u) && seen_life == life_of[R] && end == Nothing && IN(marks, u) -> end = Lost
  :: !IN((units | processes), u) && seen_life == life_of[R] && end == Nothing && !IN(marks, u) -> not_begun()
#else
  :: !IN((units | processes), u) && seen_life == life_of[R] && IN(marks, u) ->
#ifdef UNNOTED_IS_LOST
     seen_begun = true;
#endif
     if :: end == Nothing -> end = (seen_begun -> Lost : Never) :: else fi
  :: !IN((units | processes), u) && seen_life == life_of[R] && !IN(marks, u) -> not_begun()
#endif
  fi;
  d_step { record[R] = Ended; how[R] = end }
}
inline not_begun() {
  if
  :: !ours || seen == Canceling || is_part ->
#if defined(NO_MARK) || defined(CLOSES_WITHOUT_MARK)
     end = Never
#else
     MAY_COME_LATE(Close); worker_close(u); goto next
#endif
  :: else ->
     boards = held[job];
     if :: boards != want[job] -> goto next :: else fi;
     MAY_COME_LATE(Begin); worker_begin(u, life_of[R], boards); goto next
  fi
}

inline restore() {
  for (job : 0 .. JOBS - 1) { state[job] = Submitted; held[job] = 0; starter[job] = 0; job_begun[job] = 0 }
  job = 0; taken = 0; kept = 0; restores--; farm++
}
inline forget_record() {
  record[R] = NoRecord; how[R] = Nothing; unit_of[R] = 0; life_of[R] = 0;
#if OLDER_FOLDERS
  line[R] = 0; line_how[R] = Nothing
#else
  skip
#endif
}
proctype Dispatcher(byte me) {
  byte job, u, other, boards, boot, seen_life, asked, marks, units, processes;
  mtype seen, end = Nothing;
  bit answer, is_quiet, ours, is_part, seen_begun;
#if COPIES
  if :: me == 0 :: copied fi;
#endif
  do
  :: look();
     d_step {              /* the desk's view, after the worker's */
       seen = state[job];
#ifdef LOOKS_AT_FIRST      /* a group is Finished with the job of its first board */
       if :: RUNS_AT_DESK(job) && !(held[job] & want[job] & -want[job]) -> seen = Finished :: else fi;
#endif
       is_part = RUNS_AT_DESK(job) && held[job] != want[job];
       ours = (record[R] != NoRecord && (seen == Running || seen == Canceling) && starter[job] == unit_of[R] + 1)
     };
     end_strays();
#ifdef TAKES_OLD_RECORD
     if
     :: d_step { seen == Scheduled && record[R] != NoRecord && record[R] != Made -> record[R] = Made; how[R] = Nothing }
     :: else
     fi;
#else                      /* a unit that was begun, or closed: the record is of an older folder */
     if
     :: d_step { seen == Scheduled && record[R] == Made && IN((marks | units | processes), unit_of[R]) ->
          record[R] = Started }
     :: else
     fi;
#endif
     if
     :: seen == Scheduled && (record[R] == NoRecord || record[R] == Made) -> may_begin()
     :: else
     fi;
     if
     :: record[R] == NoRecord && seen == Scheduled -> new_record(Made)
     :: record[R] == NoRecord && (seen == Running || seen == Canceling) -> find_again()
     :: record[R] == NoRecord && (seen == Submitted || seen == Finished) -> goto next
     :: else
     fi;
#ifdef RECORD_AFTER_START  /* as where it isn't synced, and the desk's machine is cut */
     if :: record[R] == Made -> u = unit_of[R]; d_step { desk_start(u) }; if :: atomic { kills > 0 -> kills--; drop() } goto next :: skip fi :: else fi;
#else
     KILL;
#endif
     u = unit_of[R];
     if
     :: record[R] == Made && (seen == Submitted || seen == Finished) -> drop(); goto next
     :: record[R] == Made && seen != Submitted && seen != Finished -> start()
     :: else
     fi;
     if :: record[R] == Started -> become() :: else fi;
     if :: record[R] == Ended && ours -> wait_for_others() :: else fi;
     d_step { marks = 0; units = 0; processes = 0; seen_life = 0; end = Nothing; boards = 0; asked = 0; seen_begun = 0; answer = 0 };
     KILL;
     if
     :: record[R] == Ended && ours ->
        do                 /* each board that it holds */
        :: held[job] && RUNS_AT_DESK(job) -> d_step { desk_finish(u) }; KILL
        :: else -> break
        od
     :: else
     fi;
     if
     :: record[R] == Ended -> d_step { line[R] = u + 1; line_how[R] = how[R] }; KILL; record[R] = Written; KILL
     :: else
     fi;
     MAY_COME_LATE(Forget);
     worker_forget(u);
     KILL;
     if :: answer -> drop() :: else fi;
     goto next
#if RESTORES               /* the farm goes on as it was before a Start, or behind one; calls to the desk that stopped are lost */
  :: d_step { restores > 0 && fresh > 0 -> restore() }
  :: atomic { restores > 0 && fresh > 0 ->
       select (u : 0 .. UNITS - 1);
       if
       :: d_step { came_to[u] == 2 ->
            restore();
            job = job_of[u];
            state[job] = Running; starter[job] = u + 1; held[job] = want[job]; taken = want[job]; KEEP(u);
            job_begun[job] = was_begun[u]; over[u] = 0; NOTE_FARM; job = 0 }
       :: else
       fi;
       goto next }
#endif
#if LOST_RECORDS           /* while it is down */
  :: d_step { lost_records > 0 && record[R] != NoRecord -> lost_records--; harmed[unit_of[R]] = 1; forget_record() }
#endif
#if OLDER_FOLDERS
  :: atomic { older_folders > 0 ->
       select (u : 0 .. UNITS - 1);
       if
       :: d_step { came_to[u] && job_of[u] == job && IS_OURS(u) ->
            older_folders--; forget_record(); record[R] = Made; unit_of[R] = u; life_of[R] = made_in[u] }
       :: d_step { came_to[u] == 2 && job_of[u] == job && IS_OURS(u) ->
            older_folders--; forget_record(); record[R] = Started; unit_of[R] = u; life_of[R] = made_in[u] }
       :: d_step { true -> older_folders--; forget_record() }
       fi;
       goto next }
#endif
  :: false ->
next:
     atomic {
       job = (job + 1) % JOBS;
       u = 0; other = 0; boards = 0; boot = 0; seen_life = 0; asked = 0; marks = 0; units = 0; processes = 0; seen = 0;
       end = Nothing; answer = 0; is_quiet = 0; ours = 0; is_part = 0; seen_begun = 0
     }
  od
}

/* ---- systemd */

proctype Unit(byte u) {
  byte other;
  bit is_quiet;
  do
  :: d_step { unit[u] == Pre ->                  /* ExecStartPre: a mark, then a look at old, then `begun` */
       if
#ifdef NO_MARK
       :: !stopping[u] && gets[u] -> unit[u] = Claimed
#else
       :: !stopping[u] && gets[u] && !mark[u] -> mark[u] = 1; unit[u] = Claimed
#endif
       :: else -> unit[u] = Failed
       fi }
  :: d_step { unit[u] == Claimed && old[u] -> mark[u] = 0; unit[u] = Failed }
  :: d_step { unit[u] == Claimed && !old[u] && (stopping[u] || !gets[u]) -> unit[u] = Failed }
  :: d_step { unit[u] == Claimed && !old[u] && !stopping[u] && gets[u] ->
       begun[u] = 1; unit[u] = Runs; lives[u] = 1;
       nothing_lives(want[job_of[u]], u);
       CHECK(BEGUN_ONCE, !was_begun[u] && !(IS_OF_FARM(u) && job_begun[job_of[u]]));
       CHECK(NOTHING_LIVES, is_quiet && !over[u]);
       CHECK(WHOLE_GROUPS, gets[u] == want[job_of[u]]);
       is_quiet = 0;
       was_begun[u] = 1;
       if :: IS_OF_FARM(u) -> job_begun[job_of[u]] = 1 :: else fi }
  :: d_step { unit[u] == Runs ->                 /* its command ends, by itself or stopped; the rest is killed */
       unit[u] = Stopped; lives[u] = 0; done[u] = 1; stopping[u] = 0 }
  :: d_step { children > 0 && unit[u] == Runs ->
       children--; unit[u] = Stopped; done[u] = 1; stopping[u] = 0 }
  :: d_step { unit[u] == Stopped ->              /* ExecStopPost: `ended`, before the unit is gone */
       if :: MARK_OF_POST && ended[u] == Nothing -> ended[u] = Done :: else fi;
       unit[u] = NoUnit }
  :: d_step { unit[u] == Failed ->               /* ExecStopPost, of a unit whose command wasn't begun */
       if :: MARK_OF_POST && ended[u] == Nothing && !begun[u] -> ended[u] = Never :: else fi;
       stopping[u] = 0; unit[u] = NoUnit }
#if CHILDREN
  :: d_step { lives[u] && unit[u] == NoUnit -> lives[u] = 0; told_to_die[u] = 0 }
#endif
  :: d_step { hands > 0 && (unit[u] == Runs || unit[u] == Stopped) ->
       hands--; unit[u] = NoUnit; lives[u] = 0; stopping[u] = 0; harmed[u] = 1 }
  od
}

/* ---- the world; what it may leave undone it gives up at some time, so that fairness asks nothing */

inline person_finishes(board) {
  d_step { persons > 0 && RUNS_AT_DESK(job) && (held[job] & board) ->
    persons--; taken = taken & ~board; held[job] = held[job] & ~board;
    if :: held[job] == 0 -> state[job] = Finished :: else fi }
}
proctype Queue(byte job) {
  byte other;
  bit is_quiet;
  do
  :: d_step { state[job] == Submitted && !(taken & want[job] & ~held[job]) ->  /* a pass gives boards */
       taken = taken | want[job]; held[job] = want[job]; state[job] = Scheduled }
#ifdef COLLECTS            /* a group keeps what boards there are, and waits for the others */
  :: d_step { state[job] == Submitted && held[job] == 0 && (want[job] & ~taken) && (taken & want[job]) ->
       held[job] = want[job] & ~taken; taken = taken | held[job] }
#endif
  :: d_step { cancels > 0 && (state[job] == Submitted || state[job] == Scheduled) ->
#if !RESTORES              /* (where an older farm gives boards on, what runs is ended before the next begins) */
       nothing_lives(held[job], UNITS); CHECK(NOTHING_LIVES, is_quiet); is_quiet = 0;
#endif
       cancels--; taken = taken & ~held[job]; held[job] = 0; state[job] = Finished }
  :: d_step { cancels > 0 && state[job] == Running -> cancels--; state[job] = Canceling }
  :: GIVE_UP(cancels)
  :: person_finishes(1)
  :: person_finishes(2)
  :: GIVE_UP(persons)
  od
}
inline end_life() {
  life++;
  for (u : 0 .. UNITS - 1) {
    mark[u] = 0; begun[u] = 0; old[u] = 0; ended[u] = Nothing; gets[u] = 0;
    if :: u < fresh -> harmed[u] = 1 :: else fi
  }
  u = 0
}
proctype World() {
  byte job, u;
  do
  :: d_step { restarts > 0 -> restarts--;
       for (u : 0 .. UNITS - 1) { unit[u] = NoUnit; lives[u] = 0; stopping[u] = 0; told_to_die[u] = 0 }
       end_life() }
  :: GIVE_UP(restarts)
  :: d_step { wipes > 0 -> wipes--; end_life() }
  :: GIVE_UP(wipes)
  :: GIVE_UP(hands)
  :: GIVE_UP(children)
  :: GIVE_UP(late)
#ifdef KILLS
  :: GIVE_UP(kills)
#endif
  :: GIVE_UP(restores)
  :: GIVE_UP(lost_records)
  :: GIVE_UP(older_folders)
#if COPIES
  :: d_step { copies > 0 ->
       copies--; copied = 1;
       for (job : 0 .. JOBS - 1) {
         record[JOBS + job] = record[job]; how[JOBS + job] = how[job]; unit_of[JOBS + job] = unit_of[job];
         life_of[JOBS + job] = life_of[job]; line[JOBS + job] = line[job]; line_how[JOBS + job] = line_how[job] }
       job = 0 }
#endif
  od
}
init {
  byte me, job;
  atomic {
    WANTS;
#ifdef UNIT_BY_NUMBER
    for (me : 0 .. DISPATCHERS - 1) { for (job : 0 .. JOBS - 1) { job_of[R] = job; id_of[R] = me } }
    fresh = RECORDS;
#endif
    for (job : 0 .. JOBS - 1) { run Queue(job) }
    for (me : 0 .. DISPATCHERS - 1) { run Dispatcher(me) }
    for (job : 0 .. UNITS - 1) { run Unit(job) }
    run World();
    me = 0; job = 0
  }
}
#ifdef ENDS
#if DISPATCHERS == 2 && !defined(ONE_RECORD)
#define OPEN2 && record[JOBS] == NoRecord
#else
#define OPEN2
#endif
#if JOBS == 1
ltl all_end { <> [] (state[0] == Finished && record[0] == NoRecord OPEN2) }
#else
ltl all_end { <> [] (state[0] == Finished && state[1] == Finished && record[0] == NoRecord && record[1] == NoRecord) }
#endif
#endif
