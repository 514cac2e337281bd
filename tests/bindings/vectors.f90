! Runs the cases that plain.py wrote into the file that is named, and prints how many there are.
program vectors
  use, intrinsic :: iso_fortran_env, only: int64
  use checks
  use tilde
  implicit none
  ! Windows of one byte take a call for each; longer texts go through wider ones.
  integer, parameter :: most_single = 5000
  ! What stands in lent room before a call.
  character, parameter :: untouched = char(170)
  character(len=1000) :: path
  character :: letter
  integer :: unit, cases

  call get_command_argument(1, path)
  open (newunit=unit, file=trim(path), access='stream', form='unformatted', status='old', action='read')
  cases = 0
  do
    read (unit) letter
    if (letter == '.') exit
    cases = cases + 1
    select case (letter)
    case ('l')
      call try_line(text())
    case ('v')
      call try_vet(text())
    case ('w')
      call try_windows(text())
    case default
      call expect(.false., 'a case begins with '//letter)
    end select
  end do
  close (unit)
  call expect(cases > 0, 'no case')
  print '(i0)', cases

contains

  integer(int64) function number()
    read (unit) number
  end function number

  function text()
    character(len=:), allocatable :: text
    allocate (character(len=number()) :: text)
    read (unit) text
  end function text

  subroutine read_table(table)
    type(tilde_table), intent(out) :: table
    character :: letter
    do
      read (unit) letter
      select case (letter)
      case ('b')
        call table%add(number() == 1)
      case ('i')
        call table%add(number())
      case ('c')
        call table%add_character(achar(number()))
      case ('s')
        call table%add(text())
      case ('(')
        call table%begin_list()
      case (')')
        call table%end_list()
      case ('$')
        call table%load(text())
      case default
        exit
      end select
    end do
    call expect(table%fault() == '', 'the table fits')
  end subroutine read_table

  ! Code, position and steps of a case.
  subroutine read_end(wanted)
    type(tilde_answer), intent(out) :: wanted
    wanted%code = int(number())
    wanted%position = number()
    wanted%steps = number()
  end subroutine read_end

  subroutine compare(told, wanted, what)
    type(tilde_answer), intent(in) :: told, wanted
    character(len=*), intent(in) :: what
    call expect(told%code == wanted%code, what//': code')
    call expect(told%position == wanted%position, what//': position')
    call expect(told%steps == wanted%steps, what//': steps')
    call expect(told%written == wanted%written, what//': written')
  end subroutine compare

  subroutine try_line(place)
    character(len=*), intent(in) :: place
    type(tilde_table) :: table
    type(tilde_answer) :: wanted, told
    character(len=:), allocatable :: written, format, buffer
    integer(int64) :: room
    call read_end(wanted)
    written = text()
    wanted%written = len(written)
    format = text()
    call read_table(table)
    room = number()
    buffer = repeat(untouched, room)
    call tilde_format_into(format, table, buffer, told)
    call compare(told, wanted, place)
    call expect(buffer == written//repeat(untouched, room - told%written), place//': the buffer')
    call try_unlimited(place, format, table, written, wanted)
  end subroutine try_line

  ! The same with all the room that it takes, whole and by windows.
  subroutine try_unlimited(place, format, table, written, wanted)
    character(len=*), intent(in) :: place, format, written
    type(tilde_table), intent(inout) :: table
    type(tilde_answer), intent(in) :: wanted
    type(tilde_answer) :: told
    character(len=:), allocatable :: whole
    call tilde_format(format, table, whole, told)
    if (wanted%code == tilde_no_room) then
      call expect(told%code /= tilde_no_room, place//': room without limit')
      call expect(index(whole, written) == 1, place//': the text begins with what was kept')
    else
      call compare(told, wanted, place//' without limit')
      call expect(whole == written, place//': the text without limit')
    end if
    call expect(told%written == len(whole), place//': the length of the text')
    call try_parts(place, format, table, whole, told)
  end subroutine try_unlimited

  subroutine try_parts(place, format, table, whole, wanted)
    character(len=*), intent(in) :: place, format, whole
    type(tilde_table), intent(inout) :: table
    type(tilde_answer), intent(in) :: wanted
    type(tilde_line) :: line
    type(tilde_answer) :: told
    character(len=:), allocatable :: window
    integer(int64) :: given
    window = repeat(untouched, merge(1, 511, len(whole) <= most_single))
    given = 0
    do
      call tilde_window(line, format, table, window, told)
      call expect(window(:told%written) == whole(given + 1:given + told%written), place//': a part')
      given = given + told%written
      if (told%code /= tilde_more) exit
    end do
    told%written = given
    call compare(told, wanted, place//' by windows')
  end subroutine try_parts

  subroutine try_vet(place)
    character(len=*), intent(in) :: place
    type(tilde_vetted) :: wanted, told
    character(len=:), allocatable :: format, kinds
    integer :: i
    wanted%code = int(number())
    wanted%position = number()
    wanted%count = number()
    format = text()
    kinds = text()
    call tilde_vet(format, [(iachar(kinds(i:i)), i=1, len(kinds))], int(number()), told)
    call expect(told%code == wanted%code, place//': code')
    call expect(told%position == wanted%position, place//': position')
    call expect(told%count == wanted%count, place//': count')
  end subroutine try_vet

  subroutine try_windows(place)
    character(len=*), intent(in) :: place
    type(tilde_table) :: table
    type(tilde_line) :: line
    type(tilde_answer) :: ended, wanted, told
    character(len=:), allocatable :: format, window, written
    integer(int64) :: call_number
    call read_end(ended)
    format = text()
    call read_table(table)
    do call_number = 1, number()
      window = repeat(untouched, number())
      wanted = merge(ended, tilde_answer(code=tilde_more), number() == 1)
      written = text()
      wanted%written = len(written)
      call tilde_window(line, format, table, window, told)
      call compare(told, wanted, place)
      call expect(window == written//repeat(untouched, len(window) - len(written)), place//': the window')
    end do
  end subroutine try_windows
end program vectors
