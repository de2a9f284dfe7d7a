processes: 1; journal entries: 7

setup: Initializer.SysDaemon.z in ring 0
  line 2   create_seg >a 64 4 4 4           entry 1: done
  line 3   set_acl >a Jones.Faculty.a rw    entry 2: done
  line 4   set_acl > Jones.Faculty.a sma    entry 3: done

process 1: Jones.Faculty.a, from ring 4
  line 6   initiate >a                      entry 4: segment number 10, known from now on
           process 1 gains 10: rw, brackets 4,4,4, 64 words (by the entry "Jones.Faculty.a rw")
  line 7   set 52                           A is 52
  line 8   sta 10|5                         write 10|5: stores 52
  line 9   lda 10|5                         read 10|5: 52, stored by process 1 at point 4
  line 10  set_acl >a Jones.Faculty.a null  entry 5: done
           process 1 loses access to 10: was rw, is now null (by the entry "Jones.Faculty.a null")
  line 11  lda 10|5
           read 10|5 denied not_readable: the flag r is off, as the entry Jones.Faculty.a gives null, behind entry 5
  line 12  set_acl >a Jones.Faculty.a r     entry 6: done
           process 1 gains access to 10: was null, is now r (by the entry "Jones.Faculty.a r")
  line 13  lda 10|5                         read 10|5: 52, stored by process 1 at point 4
  line 14  sta 10|5
           write 10|5 denied not_writable: the flag w is off, as the entry Jones.Faculty.a gives r, behind entry 6
  line 15  logout                           entry 7: done
