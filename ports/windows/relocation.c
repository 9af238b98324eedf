/* An address in the library, which has no other one to be changed where the loader moves it: so the DLL has a section .reloc,
 * without which some loaders move no DLL. */
const void *const pdb_relocated = &pdb_relocated;
