! Formats and vets tilde format strings, as in Guile's format, by the library libtilde. Fortran 2008.
!
!     program station
!       use tilde
!       implicit none
!       type(tilde_table) :: table
!       type(tilde_answer) :: answer
!       character(len=:), allocatable :: text
!       call table%add('Harlingen')
!       call table%add(.true.)
!       call table%begin_list()
!       call table%add(3)
!       call table%add(14)
!       call table%end_list()
!       call tilde_format('~a is ~:[closed~;open~], members~{ ~d~}', table, text, answer)
!       print '(a)', text
!       if (answer%code /= tilde_done) print '(2a,i0)', tilde_words(answer%code), ', at byte ', answer%position
!     end program station
!
! prints
!
!     Harlingen is open, members 3 14
!
! and is built, where tilde is installed, by
!
!     gfortran "$(pkg-config --variable=bindings tilde)/tilde.f90" program.f90 $(pkg-config --libs tilde)
!
! A blank at the end of a format or a string is a byte like any other: give trim(line) where it is not wanted. The calls
! ask nothing of what they are given, and include/tilde.h says what each answers. Threads that have each a table and a
! line of their own do not disturb each other.

! The calls of the library as they are in C, and its structs.
module tilde_c
  use, intrinsic :: iso_c_binding, only: c_char, c_int, c_int8_t, c_int32_t, c_int64_t, c_null_ptr, c_ptr, c_size_t
  implicit none
  public

  ! tilde_table of tilde_table.h.
  type, bind(c) :: tilde_c_table
    type(c_ptr) :: room = c_null_ptr
    integer(c_size_t) :: size = 0, entries = 0, arguments = 0, pool = 0, list = 0
    integer(c_int) :: fits = 0
  end type tilde_c_table

  ! tilde_state of tilde.h by its size: its numbers are the library's own. All zeros is a fresh one.
  type, bind(c) :: tilde_c_state
    integer(c_size_t) :: numbers(31) = 0
  end type tilde_c_state

  interface
    integer(c_int32_t) function tilde_c_format(format, format_length, table, table_length, buffer, buffer_length, &
        position, steps, written) bind(c, name='tilde_format')
      import :: c_char, c_int32_t, c_size_t
      character(kind=c_char), intent(in) :: format(*), table(*)
      character(kind=c_char), intent(inout) :: buffer(*)
      integer(c_size_t), value, intent(in) :: format_length, table_length, buffer_length
      integer(c_size_t), intent(out) :: position, steps, written
    end function tilde_c_format

    integer(c_int32_t) function tilde_c_window(state, format, format_length, table, table_length, window, &
        window_length, position, steps, written) bind(c, name='tilde_window')
      import :: c_char, c_int32_t, c_size_t, tilde_c_state
      type(tilde_c_state), intent(inout) :: state
      character(kind=c_char), intent(in) :: format(*), table(*)
      character(kind=c_char), intent(inout) :: window(*)
      integer(c_size_t), value, intent(in) :: format_length, table_length, window_length
      integer(c_size_t), intent(out) :: position, steps, written
    end function tilde_c_window

    integer(c_int32_t) function tilde_c_vet(format, format_length, kinds, kinds_length, longest, position, count) &
        bind(c, name='tilde_vet')
      import :: c_char, c_int8_t, c_int32_t, c_size_t
      character(kind=c_char), intent(in) :: format(*)
      integer(c_int8_t), intent(in) :: kinds(*)
      integer(c_size_t), value, intent(in) :: format_length, kinds_length, longest
      integer(c_size_t), intent(out) :: position, count
    end function tilde_c_vet

    type(c_ptr) function tilde_c_words(code) bind(c, name='tilde_words')
      import :: c_int32_t, c_ptr
      integer(c_int32_t), value, intent(in) :: code
    end function tilde_c_words

    type(c_ptr) function tilde_c_version() bind(c, name='tilde_version')
      import :: c_ptr
    end function tilde_c_version

    integer(c_size_t) function tilde_c_length(text) bind(c, name='strlen')
      import :: c_ptr, c_size_t
      type(c_ptr), value, intent(in) :: text
    end function tilde_c_length

    integer(c_int) function tilde_c_begin(table, room, size) bind(c, name='tilde_table_begin')
      import :: c_int, c_ptr, c_size_t, tilde_c_table
      type(tilde_c_table), intent(inout) :: table
      type(c_ptr), value, intent(in) :: room
      integer(c_size_t), value, intent(in) :: size
    end function tilde_c_begin

    integer(c_int) function tilde_c_boolean(table, truth) bind(c, name='tilde_table_boolean')
      import :: c_int, tilde_c_table
      type(tilde_c_table), intent(inout) :: table
      integer(c_int), value, intent(in) :: truth
    end function tilde_c_boolean

    integer(c_int) function tilde_c_integer(table, number) bind(c, name='tilde_table_integer')
      import :: c_int, c_int64_t, tilde_c_table
      type(tilde_c_table), intent(inout) :: table
      integer(c_int64_t), value, intent(in) :: number
    end function tilde_c_integer

    integer(c_int) function tilde_c_character(table, character) bind(c, name='tilde_table_character')
      import :: c_int, tilde_c_table
      type(tilde_c_table), intent(inout) :: table
      integer(c_int), value, intent(in) :: character
    end function tilde_c_character

    integer(c_int) function tilde_c_string(table, bytes, length) bind(c, name='tilde_table_string')
      import :: c_char, c_int, c_size_t, tilde_c_table
      type(tilde_c_table), intent(inout) :: table
      character(kind=c_char), intent(in) :: bytes(*)
      integer(c_size_t), value, intent(in) :: length
    end function tilde_c_string

    integer(c_int) function tilde_c_list_begin(table) bind(c, name='tilde_table_list_begin')
      import :: c_int, tilde_c_table
      type(tilde_c_table), intent(inout) :: table
    end function tilde_c_list_begin

    integer(c_int) function tilde_c_list_end(table) bind(c, name='tilde_table_list_end')
      import :: c_int, tilde_c_table
      type(tilde_c_table), intent(inout) :: table
    end function tilde_c_list_end

    integer(c_size_t) function tilde_c_end(table) bind(c, name='tilde_table_end')
      import :: c_size_t, tilde_c_table
      type(tilde_c_table), intent(inout) :: table
    end function tilde_c_end
  end interface
end module tilde_c

module tilde
  use, intrinsic :: iso_c_binding, only: c_char, c_f_pointer, c_int, c_int8_t, c_int32_t, c_loc, c_ptr, c_size_t
  use, intrinsic :: iso_fortran_env, only: int32, int64
  use tilde_c
  implicit none
  private
  public :: tilde_format, tilde_format_into, tilde_window, tilde_vet, tilde_words, tilde_version

  ! The codes.
  integer, parameter, public :: tilde_done = 0, tilde_bad_table = 1, tilde_long_format = 2, tilde_unknown_code = 3, &
      tilde_bad_block = 4, tilde_bad_parameter = 5, tilde_no_argument = 6, tilde_wrong_kind = 7, &
      tilde_out_of_range = 8, tilde_step_limit = 9, tilde_no_room = 10, tilde_not_plain = 11, tilde_bad_kinds = 12
  ! What a window answers instead of a code until the end.
  integer, parameter, public :: tilde_more = 256
  ! The kinds of values, which a vet is given.
  integer, parameter, public :: tilde_boolean = 0, tilde_integer = 1, tilde_character = 2, tilde_string = 3, &
      tilde_list = 4
  ! The sizes of a table, and the limits.
  integer, parameter, public :: tilde_header_bytes = 8, tilde_entry_bytes = 12, tilde_most_entries = 1024, &
      tilde_most_pool = 65536, tilde_most_format = 4096, tilde_most_steps = 65536, tilde_most_kinds = 1024, &
      tilde_most_longest = 4096

  character(len=*), parameter :: no_memory = 'no memory for the table'

  ! The answer of a call: its code, the position that goes with it, the steps done, and the bytes written.
  type, public :: tilde_answer
    integer :: code = tilde_done
    integer(c_size_t) :: position = 0, steps = 0, written = 0
  end type tilde_answer

  ! The answer of a vet: its code, the position that goes with it, and the byte count.
  type, public :: tilde_vetted
    integer :: code = tilde_done
    integer(c_size_t) :: position = 0, count = 0
  end type tilde_vetted

  ! Where a line stands between two windows. A copy goes on from where it was made.
  type, public :: tilde_line
    private
    type(tilde_c_state) :: state
  contains
    ! Makes it fresh, for another line.
    procedure :: clear => clear_line
  end type tilde_line

  ! A table of arguments as it grows, and then as it is given to a call. The first call finishes it, and clear begins
  ! another. One that does not fit is a table of no bytes, which the calls refuse with tilde_bad_table at 0.
  type, public :: tilde_table
    private
    type(tilde_c_table) :: made
    character(kind=c_char), allocatable :: room(:)
    ! once it has ended, the bytes of the table, which stand at the start of the room
    integer(c_size_t) :: length = 0
    logical :: ended = .false.
    ! the first thing that did not fit
    character(len=64) :: wrong = ''
  contains
    ! Adds a boolean, an integer of 32 or 64 bits, or a string of any bytes.
    generic :: add => add_boolean, add_int32, add_int64, add_string
    procedure, private :: add_boolean, add_int32, add_int64, add_string
    ! Adds a character, one byte of 0 to 127.
    procedure :: add_character
    ! Begins and ends a list: what comes between is in it, other lists too.
    procedure :: begin_list, end_list
    ! Ends the table. The calls do it too; a table that is given to several threads needs it before.
    procedure :: finish
    ! Removes all, to begin another table.
    procedure :: clear => clear_table
    ! Takes the bytes of a whole table, good or bad, instead; and gives those of the table in hand.
    procedure :: load, bytes
    ! What did not fit, in words; no bytes if all did.
    procedure :: fault
  end type tilde_table

contains

  ! Takes so many bytes of room, or one where memory does not allow them.
  subroutine take(self, size)
    class(tilde_table), intent(inout) :: self
    integer(c_size_t), intent(in) :: size
    integer :: status
    allocate (self%room(size), stat=status)
    if (status /= 0) allocate (self%room(1))
  end subroutine take

  ! Begins a table where none is. It may be a copy, and then its room has another place than before.
  subroutine prepare(self)
    class(tilde_table), intent(inout), target :: self
    if (allocated(self%room)) then
      self%made%room = c_loc(self%room)
    else
      call take(self, int(tilde_header_bytes + tilde_entry_bytes*tilde_most_entries + tilde_most_pool, c_size_t))
      if (tilde_c_begin(self%made, c_loc(self%room), size(self%room, kind=c_size_t)) == 0) call refuse(self, no_memory)
    end if
  end subroutine prepare

  subroutine refuse(self, why)
    class(tilde_table), intent(inout) :: self
    character(len=*), intent(in) :: why
    self%made%fits = 0
    self%length = 0
    if (self%wrong == '') self%wrong = why
  end subroutine refuse

  ! What was to be added did not fit.
  subroutine overflow(self)
    class(tilde_table), intent(inout) :: self
    if (self%ended) then
      call refuse(self, 'a value came after the end: clear begins another table')
    else if (self%made%entries == tilde_most_entries) then
      call refuse(self, 'more than 1,024 values, lists and what is in them counted')
    else
      call refuse(self, 'more than 65,536 bytes of strings')
    end if
  end subroutine overflow

  subroutine add_boolean(self, value)
    class(tilde_table), intent(inout) :: self
    logical, intent(in) :: value
    call prepare(self)
    if (tilde_c_boolean(self%made, merge(1_c_int, 0_c_int, value)) == 0) call overflow(self)
  end subroutine add_boolean

  subroutine add_int64(self, value)
    class(tilde_table), intent(inout) :: self
    integer(int64), intent(in) :: value
    call prepare(self)
    if (tilde_c_integer(self%made, value) == 0) call overflow(self)
  end subroutine add_int64

  subroutine add_int32(self, value)
    class(tilde_table), intent(inout) :: self
    integer(int32), intent(in) :: value
    call self%add_int64(int(value, int64))
  end subroutine add_int32

  subroutine add_string(self, value)
    class(tilde_table), intent(inout) :: self
    character(len=*), intent(in) :: value
    call prepare(self)
    if (tilde_c_string(self%made, value, len(value, kind=c_size_t)) == 0) call overflow(self)
  end subroutine add_string

  subroutine add_character(self, value)
    class(tilde_table), intent(inout) :: self
    character(len=*), intent(in) :: value
    call prepare(self)
    if (len(value) /= 1) then
      call refuse(self, 'a character that is not one byte')
    else if (iachar(value) > 127) then
      call refuse(self, 'a character above 127')
    else
      if (tilde_c_character(self%made, int(iachar(value), c_int)) == 0) call overflow(self)
    end if
  end subroutine add_character

  subroutine begin_list(self)
    class(tilde_table), intent(inout) :: self
    call prepare(self)
    if (tilde_c_list_begin(self%made) == 0) call overflow(self)
  end subroutine begin_list

  subroutine end_list(self)
    class(tilde_table), intent(inout) :: self
    call prepare(self)
    if (tilde_c_list_end(self%made) == 0) call refuse(self, 'a list ends that is not open')
  end subroutine end_list

  subroutine finish(self)
    class(tilde_table), intent(inout) :: self
    if (self%ended) return
    call prepare(self)
    if (self%made%list > 0) call refuse(self, 'a list has no end')
    self%length = tilde_c_end(self%made)
    self%ended = .true.
  end subroutine finish

  subroutine clear_table(self)
    class(tilde_table), intent(out) :: self
    self%ended = .false.
  end subroutine clear_table

  subroutine load(self, bytes)
    class(tilde_table), intent(inout) :: self
    character(len=*), intent(in) :: bytes
    integer(c_size_t) :: length
    length = len(bytes, kind=c_size_t)
    call self%clear()
    self%ended = .true.
    call take(self, max(length, 1_c_size_t))
    if (size(self%room, kind=c_size_t) < length) then
      call refuse(self, no_memory)
    else
      self%room(:length) = transfer(bytes, self%room, length)
      self%length = length
    end if
  end subroutine load

  function bytes(self)
    class(tilde_table), intent(inout) :: self
    character(len=:), allocatable :: bytes
    call self%finish()
    bytes = repeat(' ', self%length)
    bytes = transfer(self%room(:self%length), bytes)
  end function bytes

  function fault(self)
    class(tilde_table), intent(in) :: self
    character(len=:), allocatable :: fault
    fault = trim(self%wrong)
  end function fault

  subroutine clear_line(self)
    class(tilde_line), intent(out) :: self
    self%state = tilde_c_state()
  end subroutine clear_line

  ! Writes the text of a format over a table at the start of a buffer, and nothing behind it. What does not fit is
  ! refused with tilde_no_room.
  subroutine tilde_format_into(format, table, buffer, answer)
    character(len=*), intent(in) :: format
    type(tilde_table), intent(inout) :: table
    character(len=*), intent(inout) :: buffer
    type(tilde_answer), intent(out) :: answer
    call table%finish()
    answer%code = int(tilde_c_format(format, len(format, kind=c_size_t), table%room, table%length, buffer, &
                                     len(buffer, kind=c_size_t), answer%position, answer%steps, answer%written))
  end subroutine tilde_format_into

  ! Writes the next part of a line into a window, as much as it has room for, and answers tilde_more until the end:
  !
  !     do
  !       call tilde_window(line, format, table, window, answer)
  !       write (unit) window(:answer%written)
  !       if (answer%code /= tilde_more) exit
  !     end do
  !
  ! The line is fresh at first, and each of its calls has the same format and table. A window of no bytes never ends.
  subroutine tilde_window(line, format, table, window, answer)
    type(tilde_line), intent(inout) :: line
    character(len=*), intent(in) :: format
    type(tilde_table), intent(inout) :: table
    character(len=*), intent(inout) :: window
    type(tilde_answer), intent(out) :: answer
    call table%finish()
    answer%code = int(tilde_c_window(line%state, format, len(format, kind=c_size_t), table%room, table%length, window, &
                                     len(window, kind=c_size_t), answer%position, answer%steps, answer%written))
  end subroutine tilde_window

  ! Makes the text of a format over a table, of any length; after a refusal it is what is kept. Where memory does not
  ! allow it the text is empty and refused with tilde_no_room.
  subroutine tilde_format(format, table, text, answer)
    character(len=*), intent(in) :: format
    type(tilde_table), intent(inout) :: table
    character(len=:), allocatable, intent(out) :: text
    type(tilde_answer), intent(out) :: answer
    type(tilde_line) :: line
    character(len=4096) :: window
    integer(c_size_t) :: length
    integer :: status
    length = 0
    do
      call tilde_window(line, format, table, window, answer)
      length = length + answer%written
      if (answer%code /= tilde_more) exit
    end do
    allocate (character(len=length) :: text, stat=status)
    if (status /= 0) allocate (character(len=0) :: text)
    if (status == 0 .and. length == answer%written) then
      text(:) = window(:length)
    else
      call tilde_format_into(format, table, text, answer)
    end if
  end subroutine tilde_format

  ! Judges a format for all tables whose arguments are of these kinds and have no string above `longest` bytes, and
  ! counts the bytes that are enough for each. The format may have conditionals, but no jump, iteration, escape or v.
  subroutine tilde_vet(format, kinds, longest, vetted)
    character(len=*), intent(in) :: format
    integer, intent(in) :: kinds(:), longest
    type(tilde_vetted), intent(out) :: vetted
    ! one kind too many is refused as any more are; -1 is no kind
    integer(c_int8_t) :: tags(min(size(kinds), tilde_most_kinds + 1))
    tags = int(max(-1, min(kinds(:size(tags)), 127)), c_int8_t)
    vetted%code = int(tilde_c_vet(format, len(format, kind=c_size_t), tags, size(tags, kind=c_size_t), &
                                  int(longest, c_size_t), vetted%position, vetted%count))
  end subroutine tilde_vet

  ! The words for a code, tilde_more too.
  function tilde_words(code) result(words)
    integer, intent(in) :: code
    character(len=:), allocatable :: words
    words = text_at(tilde_c_words(int(code, c_int32_t)))
  end function tilde_words

  ! The version of the library.
  function tilde_version() result(version)
    character(len=:), allocatable :: version
    version = text_at(tilde_c_version())
  end function tilde_version

  ! What stands at a pointer of C, up to its zero byte.
  function text_at(from) result(text)
    type(c_ptr), intent(in) :: from
    character(len=:), allocatable :: text
    character(kind=c_char), pointer :: bytes(:)
    call c_f_pointer(from, bytes, [tilde_c_length(from)])
    text = repeat(' ', size(bytes))
    text = transfer(bytes, text)
  end function text_at

end module tilde
