/*
 * A boot loader for UEFI on x86-64: an application that reads an EFI program, such as a kernel with its stub, and its
 * signature from the partition that it was itself read from. It verifies the program under the public key that is
 * linked in, and starts it. Otherwise it says why not, and turns the machine off.
 *
 * Each file is read once. The bytes that were verified are the bytes that are started.
 */
#include <efi.h>
#include <efilib.h>

#include "hbs_verify.h"

static CHAR16 PROGRAM[] = L"\\next.efi", SIGNATURE[] = L"\\next.sig";
/* The most bytes of each file. A loader for keys of one type knows better: HBS_LMS_SIGNATURE_BYTES(10, 8). */
#define MOST_PROGRAM_BYTES ((UINTN)256 << 20)
#define MOST_SIGNATURE_BYTES HBS_MOST_SIGNATURE_BYTES
/* EFI_FILE_PROTOCOL.SetPosition takes this for the end of a file. */
#define END_OF_FILE ((UINT64)-1)

typedef struct {
    uint8_t *bytes;
    UINTN length;
} contents;

/* The public key, as hbsign make wrote it. */
extern const uint8_t public_key[], public_key_end[];
__asm__(".pushsection .rodata\n"
        ".globl public_key, public_key_end\n"
        ".hidden public_key, public_key_end\n"
        "public_key: .incbin \"" PUBLIC_KEY "\"\n"
        "public_key_end: .popsection");

/* What the library calls, and gnu-efi has not. */
void *memmove(void *to, const void *from, size_t count) {
    BS->CopyMem(to, (void *)from, count);
    return to;
}

/* Allocates memory for a file's length, and reads it. A file that has become longer or shorter meanwhile is refused. */
static EFI_STATUS read_all(EFI_FILE_PROTOCOL *file, UINTN most, contents *it) {
    UINT64 length;
    EFI_STATUS status = file->SetPosition(file, END_OF_FILE);
    if (!EFI_ERROR(status)) status = file->GetPosition(file, &length);
    if (!EFI_ERROR(status)) status = file->SetPosition(file, 0);
    if (EFI_ERROR(status)) return status;
    if (length > most) return EFI_BAD_BUFFER_SIZE;
    it->length = length + 1;
    status = BS->AllocatePool(EfiLoaderData, it->length, (void **)&it->bytes);
    if (!EFI_ERROR(status)) status = file->Read(file, &it->length, it->bytes);
    if (!EFI_ERROR(status) && it->length != length) status = EFI_VOLUME_CORRUPTED;
    return status;
}

/* Reads a file that has at most `most` bytes. Says so where it can't. */
static EFI_STATUS read_file(EFI_FILE_PROTOCOL *folder, CHAR16 *name, UINTN most, contents *it) {
    EFI_FILE_PROTOCOL *file;
    EFI_STATUS status = folder->Open(folder, &file, name, EFI_FILE_MODE_READ, 0);
    if (!EFI_ERROR(status)) {
        status = read_all(file, most, it);
        file->Close(file);
    }
    if (status == EFI_BAD_BUFFER_SIZE) Print(L"loader: %s has more than %ld bytes\n", name, (UINT64)most);
    else if (EFI_ERROR(status)) Print(L"loader: %s can't be read: %r\n", name, status);
    return status;
}

/* Opens the partition from which this application was read. */
static EFI_STATUS open_partition(EFI_HANDLE loader, EFI_FILE_PROTOCOL **folder) {
    EFI_LOADED_IMAGE *own;
    EFI_SIMPLE_FILE_SYSTEM_PROTOCOL *files;
    EFI_STATUS status = BS->HandleProtocol(loader, &LoadedImageProtocol, (void **)&own);
    if (!EFI_ERROR(status)) status = BS->HandleProtocol(own->DeviceHandle, &FileSystemProtocol, (void **)&files);
    if (!EFI_ERROR(status)) status = files->OpenVolume(files, folder);
    if (EFI_ERROR(status)) Print(L"loader: no partition: %r\n", status);
    return status;
}

/* Starts a program from memory. A firmware with Secure Boot judges it, too. */
static void start(EFI_HANDLE loader, const contents *program) {
    EFI_HANDLE started = NULL;
    EFI_STATUS status = BS->LoadImage(FALSE, loader, NULL, program->bytes, program->length, &started);
    if (EFI_ERROR(status)) {
        Print(L"loader: the program can't be loaded: %r\n", status);
        return;
    }
    status = BS->StartImage(started, NULL, NULL);
    Print(L"loader: the program has returned: %r\n", status);
}

static void load(EFI_HANDLE loader) {
    EFI_FILE_PROTOCOL *folder;
    contents program, signature;
    uint64_t answer;
    if (EFI_ERROR(open_partition(loader, &folder)) ||
        EFI_ERROR(read_file(folder, PROGRAM, MOST_PROGRAM_BYTES, &program)) ||
        EFI_ERROR(read_file(folder, SIGNATURE, MOST_SIGNATURE_BYTES, &signature))) return;
    answer = hbs_verify(public_key, (size_t)(public_key_end - public_key), program.bytes, program.length,
                        signature.bytes, signature.length);
    if (answer != HBS_VERIFIED) {
        Print(L"loader: refused %ld detail %ld\n", HBS_NUMBER(answer), HBS_DETAIL(answer));
        return;
    }
    Print(L"loader: verified\n");
    start(loader, &program);
}

/* It never returns, since a firmware would then try what it has beside this. */
EFI_STATUS efi_main(EFI_HANDLE loader, EFI_SYSTEM_TABLE *table) {
    InitializeLib(loader, table);
    load(loader);
    RT->ResetSystem(EfiResetShutdown, EFI_SUCCESS, 0, NULL);
    for (;;) __asm__ volatile("hlt");
}
