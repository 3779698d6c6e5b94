"""What gfortran makes of jobs, compared with what mothra says of them."""
