processes: 3; journal entries: 17

setup: Initializer.SysDaemon.z in ring 0

process 2: Smith.Faculty.a, from ring 4
  line 11  block                            entry 1: it waits for a message

process 3: Brown.Faculty.a, from ring 4
  line 15  block                            entry 2: it waits for a message

process 1: Jones.Faculty.a, from ring 4
  line 3   wakeup 2 5                       entry 3: the message is sent
  line 4   wakeup 3 6                       entry 4: the message is sent
process 2, in ring 4
  line 11  goes on                          entry 5: process 1 sent 5
process 3, in ring 4
  line 15  goes on                          entry 6: process 1 sent 6
process 1, in ring 4
  line 5   block                            entry 7: it waits for a message
process 2, in ring 4
  line 12  wakeup 1 50                      entry 8: the message is sent
process 3, in ring 4
  line 16  wakeup 1 60                      entry 9: the message is sent
process 1, in ring 4
  line 5   goes on                          entry 10: process 2 sent 50
  line 6   block                            entry 11: process 3 sent 60
  line 7   block                            entry 12: it waits for a message
process 2, in ring 4
  line 13  logout                           entry 13: done
process 3, in ring 4
  line 17  logout                           entry 14: done
process 1, in ring 4
  line 7   goes on                          entry 15: nobody is left who could send a message
  line 8   wakeup 2 7                       entry 16: refused ended: the process has ended; by entry 13
  line 9   logout                           entry 17: done
