processes: 2; journal entries: 8

setup: Initializer.SysDaemon.z in ring 0
  line 2   create_seg >a 64 4 4 4           entry 1: done
  line 3   set_acl >a *.Faculty.* rw        entry 2: done
  line 4   set_acl > Jones.Faculty.a sma    entry 3: done

process 2: Smith.Faculty.a, from ring 4
  line 10  initiate >a                      entry 4: segment number 10, known from now on
           process 2 gains 10: rw, brackets 4,4,4, 64 words (by the entry "*.Faculty.* rw")
  line 11  set 7                            A is 7
  line 12  sta 10|0                         write 10|0: stores 7

process 1: Jones.Faculty.a, from ring 4
  line 6   initiate >a                      entry 5: segment number 10, known from now on
           process 1 gains 10: rw, brackets 4,4,4, 64 words (by the entry "*.Faculty.* rw")
  line 7   set_acl >a Smith.Faculty.a r     entry 6: done
           process 2 loses access to 10: was rw, is now r (by the entry "Smith.Faculty.a r")
process 2, in ring 4
  line 13  lda 10|0                         segment 10 is missing: entry 6 changed its access; begun anew
           read 10|0: 7, stored by process 2 at point 4
  line 14  sta 10|0
           write 10|0 denied not_writable: the flag w is off, as the entry Smith.Faculty.a gives r, behind entry 6
  line 15  logout                           entry 7: done
process 1, in ring 4
  line 8   logout                           entry 8: done
