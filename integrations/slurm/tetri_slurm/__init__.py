"""The loop beside Slurm: asks for the queue, has a cycle planned and checked, gives the orders. README.md beside this folder tells the states of a job."""
