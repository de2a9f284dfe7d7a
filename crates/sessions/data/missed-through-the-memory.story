processes: 2; journal entries: 11

setup: Initializer.SysDaemon.z in ring 0
  line 2   create_seg >a 64 4 4 4           entry 1: done
  line 3   set_acl >a *.Faculty.* r         entry 2: done
  line 4   create_seg >b 64 4 4 4           entry 3: done
  line 5   set_acl >b *.Faculty.* r         entry 4: done
  line 6   set_acl > Jones.Faculty.a sma    entry 5: done

process 2: Smith.Faculty.a, from ring 4
  line 12  initiate >a                      entry 6: segment number 10, known from now on
           process 2 gains 10: r, brackets 4,4,4, 64 words (by the entry "*.Faculty.* r")
  line 13  initiate >b                      entry 7: segment number 11, known from now on
           process 2 gains 11: r, brackets 4,4,4, 64 words (by the entry "*.Faculty.* r")
  line 14  lda 10|0                         read 10|0: 0, nobody has stored there
  line 15  lda 11|0                         read 11|0: 0, nobody has stored there
  line 16  lda 11|1                         read 11|1: 0, nobody has stored there

process 1: Jones.Faculty.a, from ring 4
  line 8   initiate >a                      entry 8: segment number 10, known from now on
           process 1 gains 10: r, brackets 4,4,4, 64 words (by the entry "*.Faculty.* r")
  line 9   set_acl >a Smith.Faculty.a null  entry 9: done
           process 2 loses access to 10: was r, is now null (by the entry "Smith.Faculty.a null")
process 2, in ring 4
  line 17  lda 10|0                         segment 10 is missing: entry 9 changed its access; begun anew
           read 10|0 denied not_readable: the flag r is off, as the entry Smith.Faculty.a gives null, behind entry 9
  line 18  logout                           entry 10: done
process 1, in ring 4
  line 10  logout                           entry 11: done
