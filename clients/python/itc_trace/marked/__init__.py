"""What a program marks by `shared`: containers and stand-ins that note each touch."""
