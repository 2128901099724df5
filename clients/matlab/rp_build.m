function rp_build(folder)
% RP_BUILD  Compiles the library for MATLAB or Octave, once: rp_mex.c with rp.c, by the C compiler that mex has.
%
%   rp_build              rp.c and rp.h are in the folder onefile beside this file, or above this file
%   rp_build(folder)      rp.c and rp.h are in this folder
%
% It takes one to three minutes. In MATLAB, mex -setup names the compiler.
  here = fileparts(mfilename('fullpath'));
  if nargin < 1
    places = {fullfile(here, 'onefile'), fullfile(here, '..')};
    there = cellfun(@(it) exist(fullfile(it, 'rp.c'), 'file') == 2, places);
    if ~any(there)
      error('rp:NoLibrary', 'there is no rp.c in %s: say rp_build(folder)', strjoin(places, ' or '));
    end
    folder = places{find(there, 1)};
  end
  old = cd(here);
  back = onCleanup(@() cd(old));
  sources = {'rp_mex.c', fullfile(folder, 'rp.c')};
  if exist('OCTAVE_VERSION', 'builtin')
    flags = getenv('CFLAGS');
    setenv('CFLAGS', '-O1 -fPIC');
    mex(['-I', folder], sources{:});
    setenv('CFLAGS', flags);
  else
    mex('COPTIMFLAGS=-O1', ['-I', folder], sources{:});
  end
end
