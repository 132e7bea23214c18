/* An EFI program to start: it says so, and returns. */
#include <efi.h>
#include <efilib.h>

EFI_STATUS efi_main(EFI_HANDLE program, EFI_SYSTEM_TABLE *table) {
    InitializeLib(program, table);
    Print(L"next: version 1 has started\n");
    return EFI_SUCCESS;
}
