processes: 2; journal entries: 12

setup: Initializer.SysDaemon.z in ring 0
  line 2   create_seg >a 64 4 4 4           entry 1: done
  line 3   set_acl >a *.*.* rw              entry 2: done

process 1: A.B.a, from ring 4
  line 5   initiate >a                      entry 3: segment number 10, known from now on
           process 1 gains 10: rw, brackets 4,4,4, 64 words (by the entry "*.*.* rw")

process 2: C.D.a, from ring 4
  line 12  initiate >a                      entry 4: segment number 10, known from now on
           process 2 gains 10: rw, brackets 4,4,4, 64 words (by the entry "*.*.* rw")
  line 13  lda 10|0                         read 10|0: 0, nobody has stored there
process 1, in ring 4
  line 6   block                            entry 5: it waits for a message
process 2, in ring 4
  line 14  wakeup 1 1                       entry 6: the message is sent
process 1, in ring 4
  line 6   goes on                          entry 7: process 2 sent 1
  line 7   set 7                            A is 7
  line 8   sta 10|0                         write 10|0: stores 7
process 2, in ring 4
  line 15  block                            entry 8: it waits for a message
process 1, in ring 4
  line 9   wakeup 2 1                       entry 9: the message is sent
process 2, in ring 4
  line 15  goes on                          entry 10: process 1 sent 1
  line 16  lda 10|0                         read 10|0: 7, stored by process 1 at point 7
process 1, in ring 4
  line 10  logout                           entry 11: done
process 2, in ring 4
  line 17  logout                           entry 12: done
