! Tests of the module tilde that no case of tests/vectors makes: values, limits, refusals, long lines, copies. Prints
! how many checks there were. With an argument it tries a text that needs more memory than there is.
program edges
  use, intrinsic :: iso_fortran_env, only: int32, int64
  use checks
  use tilde
  implicit none

  if (command_argument_count() > 0) then
    call try_little_memory()
    stop
  end if
  call try_values()
  call try_most_values()
  call try_most_bytes()
  call try_deep_lists()
  call try_faults()
  call try_lifetime()
  call try_copies()
  call try_bytes()
  call try_refusals()
  call try_long_lines()
  call try_line_copies()
  call try_vets()
  call try_words()
  print '(i0)', checked

contains

  ! One format over a table, which is refused with this code or, for tilde_done, gives this text.
  subroutine gives(format, table, wanted, code)
    character(len=*), intent(in) :: format, wanted
    type(tilde_table), intent(inout) :: table
    integer, intent(in) :: code
    character(len=:), allocatable :: text
    type(tilde_answer) :: answer
    call tilde_format(format, table, text, answer)
    call expect(answer%code == code, format//': code')
    call expect(len(text) == len(wanted) .and. text == wanted, format//': text')
  end subroutine gives

  subroutine try_values()
    type(tilde_table) :: table
    integer(int64) :: long
    integer(int32) :: short
    long = huge(long)
    short = huge(short)
    call table%add(not(long))
    call table%add(long)
    call table%add(not(short))
    call table%add(.false.)
    call table%add('')
    call table%add('é'//achar(0)//'z ')
    call table%add_character(achar(0))
    call table%add_character(achar(127))
    call gives('~d ~d ~d ~a<~a><~a>~c~c', table, '-9223372036854775808 9223372036854775807 -2147483648 #f<><é'// &
               achar(0)//'z >'//achar(0)//achar(127), tilde_done)
  end subroutine try_values

  subroutine try_most_values()
    type(tilde_table) :: table
    integer :: i
    do i = 1, tilde_most_entries
      call table%add(i)
    end do
    call gives('~1023@*~d', table, '1024', tilde_done)
    call table%clear()
    do i = 1, tilde_most_entries + 1
      call table%add(i)
    end do
    call expect(table%fault() == 'more than 1,024 values, lists and what is in them counted', 'the values are counted')
    call gives('~d', table, '', tilde_bad_table)
  end subroutine try_most_values

  subroutine try_most_bytes()
    type(tilde_table) :: table
    call table%add(repeat('x', tilde_most_pool))
    call table%add('')
    call gives('~a~a', table, repeat('x', tilde_most_pool), tilde_done)
    call table%clear()
    call table%add(repeat('x', tilde_most_pool))
    call table%add('y')
    call expect(table%fault() == 'more than 65,536 bytes of strings', 'the bytes of strings are counted')
    call gives('~a', table, '', tilde_bad_table)
  end subroutine try_most_bytes

  subroutine try_deep_lists()
    type(tilde_table) :: table
    integer :: i
    do i = 1, tilde_most_entries
      call table%begin_list()
    end do
    do i = 1, tilde_most_entries
      call table%end_list()
    end do
    call gives('~{~{~{<~*>~}~}~}', table, '<>', tilde_done)
    call table%clear()
    do i = 1, tilde_most_entries + 1
      call table%begin_list()
    end do
    call expect(index(table%fault(), 'more than 1,024 values') == 1, 'lists are counted')
  end subroutine try_deep_lists

  ! The first thing that did not fit is told, and what comes after it makes the table no better.
  subroutine try_faults()
    type(tilde_table) :: table
    call table%add_character(char(128))
    call table%add_character('ab')
    call expect(table%fault() == 'a character above 127', 'a character above 127 is told')
    call gives('x', table, '', tilde_bad_table)
    call table%clear()
    call table%add_character('')
    call expect(table%fault() == 'a character that is not one byte', 'no character is told')
    call table%clear()
    call table%end_list()
    call expect(table%fault() == 'a list ends that is not open', 'a list without a beginning is told')
    call table%add(1)
    call gives('~d', table, '', tilde_bad_table)
    call table%clear()
    call table%begin_list()
    call expect(table%fault() == '', 'an open list is no fault yet')
    call gives('x', table, '', tilde_bad_table)
    call expect(table%fault() == 'a list has no end', 'a list without an end is told')
  end subroutine try_faults

  subroutine try_lifetime()
    type(tilde_table) :: table
    call gives('no value', table, 'no value', tilde_done)
    call gives('no value', table, 'no value', tilde_done)
    call table%add(1)
    call expect(table%fault() == 'a value came after the end: clear begins another table', 'a late value is told')
    call gives('~d', table, '', tilde_bad_table)
    call table%clear()
    call table%add(2)
    call table%finish()
    call table%finish()
    call gives('~d', table, '2', tilde_done)
  end subroutine try_lifetime

  ! A copy of a table that is not finished grows by itself.
  subroutine try_copies()
    type(tilde_table) :: one, other
    call one%add('first')
    call one%begin_list()
    other = one
    call one%add('of one')
    call one%end_list()
    call other%add('of the other')
    call other%add(3)
    call other%end_list()
    call gives('~a~{ ~a~}', one, 'first of one', tilde_done)
    call gives('~a~{ ~a~}', other, 'first of the other 3', tilde_done)
    other = one
    call one%clear()
    call gives('~a~{ ~a~}', other, 'first of one', tilde_done)
  end subroutine try_copies

  subroutine try_bytes()
    type(tilde_table) :: table, other
    call table%add('abc')
    call table%add(5)
    call other%load(table%bytes())
    call gives('~a~d', other, 'abc5', tilde_done)
    call expect(other%bytes() == table%bytes(), 'the bytes of a table that was loaded')
    call other%add(6)
    call gives('~a', other, '', tilde_bad_table)
    call other%load('')
    call expect(len(other%bytes()) == 0, 'a table of no bytes')
    call gives('x', other, '', tilde_bad_table)
    call other%load(repeat('x', 100000))
    call gives('x', other, '', tilde_bad_table)
    call table%clear()
    call expect(table%bytes() == repeat(achar(0), tilde_header_bytes), 'the bytes of a table without values')
  end subroutine try_bytes

  subroutine try_refusals()
    type(tilde_table) :: table
    type(tilde_answer) :: answer
    character(len=8) :: buffer
    call table%add('abc')
    buffer = '........'
    call tilde_format_into('~a~d', table, buffer, answer)
    call expect(answer%code == tilde_no_argument .and. answer%position == 2, 'code and position of a refusal')
    call expect(answer%steps == 2 .and. answer%written == 3, 'steps and bytes of a refusal')
    call expect(buffer == 'abc.....', 'what is kept')
    call tilde_format_into('~a~a', table, buffer(:2), answer)
    call expect(answer%code == tilde_no_room .and. buffer == 'abc.....', 'a piece that has no room')
    call tilde_format_into('', table, buffer(:0), answer)
    call expect(answer%code == tilde_done .and. answer%written == 0, 'nothing into nothing')
    call tilde_format_into(repeat('x', tilde_most_format + 1), table, buffer, answer)
    call expect(answer%code == tilde_long_format .and. answer%position == tilde_most_format, 'a format too long')
    call gives('~a~d', table, 'abc', tilde_no_argument)
  end subroutine try_refusals

  subroutine try_long_lines()
    type(tilde_table) :: table
    integer :: size
    call table%add(1)
    call gives('~2000@{~4096_~}', table, repeat(' ', 4096*2000), tilde_done)
    call gives('~2000@{~4096_~}~2*', table, repeat(' ', 4096*2000), tilde_no_argument)
    ! about the window through which a text is counted
    do size = 4095, 4097
      call table%clear()
      call table%add(repeat('y', size))
      call gives('~a', table, repeat('y', size), tilde_done)
      call gives('~a~d', table, repeat('y', size), tilde_no_argument)
    end do
  end subroutine try_long_lines

  ! A text of 134 MB, which memory does not allow, is refused at its first piece.
  subroutine try_little_memory()
    type(tilde_table) :: table
    call table%add(1)
    call gives('ab~@{~4096_~}', table, '', tilde_no_room)
  end subroutine try_little_memory

  subroutine try_line_copies()
    type(tilde_table) :: table
    type(tilde_line) :: line, other
    type(tilde_answer) :: answer
    character(len=4) :: window
    window = ''
    call table%add('abcdefg')
    call tilde_window(line, '~a', table, window, answer)
    call expect(answer%code == tilde_more .and. window == 'abcd', 'the first window')
    other = line
    call tilde_window(line, '~a', table, window(:2), answer)
    call expect(answer%code == tilde_more .and. window == 'efcd', 'the second window')
    call tilde_window(other, '~a', table, window, answer)
    call expect(answer%code == tilde_done .and. window == 'efgd', 'the second window of the copy')
    call tilde_window(other, '~a', table, window, answer)
    call expect(answer%code == tilde_done .and. answer%written == 0, 'a window after the end')
    call other%clear()
    call tilde_window(other, '~a', table, window, answer)
    call expect(answer%code == tilde_more .and. window == 'abcd', 'a line that was made fresh')
  end subroutine try_line_copies

  subroutine vets(format, kinds, longest, code, count)
    character(len=*), intent(in) :: format
    integer, intent(in) :: kinds(:), longest, code, count
    type(tilde_vetted) :: vetted
    call tilde_vet(format, kinds, longest, vetted)
    call expect(vetted%code == code .and. vetted%count == count, 'the vet of '//format)
  end subroutine vets

  subroutine try_vets()
    integer, parameter :: none(0) = 0
    integer :: kind(10), i
    call vets('x', none, 0, tilde_done, 1)
    call vets('~a', [tilde_string], tilde_most_longest, tilde_done, tilde_most_longest)
    call vets('~a', [tilde_string], tilde_most_longest + 1, tilde_bad_kinds, 0)
    call vets('~a', [tilde_string], -1, tilde_bad_kinds, 0)
    call vets('x', spread(tilde_list, 1, tilde_most_kinds), 0, tilde_done, 1)
    call vets('x', spread(tilde_list, 1, tilde_most_kinds + 1), 0, tilde_bad_kinds, 0)
    call vets('x', spread(tilde_list, 1, 3000000), 0, tilde_bad_kinds, 0)
    kind = [5, 127, 128, 255, 256, 259, -1, -253, huge(1), 0]
    kind(10) = not(kind(9))
    do i = 1, size(kind)
      call vets('x', kind(i:i), 0, tilde_bad_kinds, 0)
    end do
    kind(1:3) = [tilde_integer, 99, tilde_string]
    call vets('~a~a', kind(1:3:2), 3, tilde_done, 23)
  end subroutine try_vets

  subroutine try_words()
    call expect(tilde_words(tilde_wrong_kind) == 'wrong kind of argument', 'the words for a code')
    call expect(tilde_words(tilde_more) == 'more to come', 'the words for more')
    call expect(tilde_words(13) == 'no code of tilde', 'the words for a number that is no code')
    call expect(tilde_words(-1) == 'no code of tilde', 'the words for a negative number')
  end subroutine try_words
end program edges
