! Counted checks: one that fails is told, and ends the program.
module checks
  use, intrinsic :: iso_fortran_env, only: error_unit
  implicit none
  integer, protected :: checked = 0

contains

  subroutine expect(holds, what)
    logical, intent(in) :: holds
    character(len=*), intent(in) :: what
    checked = checked + 1
    if (holds) return
    write (error_unit, '(2a)') 'tests/bindings: in Fortran: ', what
    error stop 1
  end subroutine expect
end module checks
